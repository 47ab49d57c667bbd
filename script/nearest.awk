# The nearest of some words to one that is none of them: alone it answers NEAREST_TO among NEAREST_OF of the environment.

BEGIN {
  if (ENVIRON["NEAREST_TO"] != "") {
    print nearest(ENVIRON["NEAREST_TO"], ENVIRON["NEAREST_OF"])
    exit
  }
}

# the word of the list that is so near that it may have been meant, or nothing: one that it begins, or that differs by few letters
function nearest(word, list,    words, n, i, far, least, found) {
  n = split(list, words, " ")
  if (length(word) > 2) for (i = 1; i <= n; i++) if (index(words[i], word) == 1) return words[i]
  least = length(word) < 4 ? 2 : 3
  for (i = 1; i <= n; i++) {
    far = distance(tolower(word), tolower(words[i]))
    if (far < least) {
      least = far
      found = words[i]
    }
  }
  return found
}

# how many letters are put in, left out or changed between two words, or stand before the one that they should follow
function distance(one, other,    i, j, far) {
  if (length(one) > 40 || length(other) > 40) return 99
  for (j = 0; j <= length(other); j++) far[0, j] = j
  for (i = 1; i <= length(one); i++) {
    far[i, 0] = i
    for (j = 1; j <= length(other); j++) {
      far[i, j] = smaller(smaller(far[i - 1, j], far[i, j - 1]) + 1, far[i - 1, j - 1] + (substr(one, i, 1) != substr(other, j, 1)))
      if (i > 1 && j > 1 && substr(one, i - 1, 2) == substr(other, j, 1) substr(other, j - 1, 1)) far[i, j] = smaller(far[i, j], far[i - 2, j - 2] + 1)
    }
  }
  return far[length(one), length(other)]
}

function smaller(a, b) { return a < b ? a : b }
