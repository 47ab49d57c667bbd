# The commands and options of the program, as its help gives them.

commands="solve check lot trial judge play replan lower resume picture"

# what the script answers itself
own_commands="table changes stats prove install help"

is_command() { [[ " $commands " == *" $1 "* ]]; }

# how many files a command takes in the place of standard input
most_files() {
  case $1 in
    judge | play | replan | picture) echo 2 ;;
    lot | trial) echo 0 ;;
    *) echo 1 ;;
  esac
}

reads_instance() { [[ " solve judge play replan picture " == *" $1 "* ]]; }
takes_clock() { [[ $1 = resume ]] || reads_instance "$1"; }
reads_plan() { [[ " judge play replan picture " == *" $1 "* ]]; }
reads_dossier() { [[ " check lower resume picture " == *" $1 "* ]]; }

# whether a search of the command can be kept, and so be cut into parts
takes_seconds() { [[ $1 = solve || $1 = resume ]]; }

# whether how far a command's search is can be shown
searches() { [[ " solve resume replan trial " == *" $1 "* ]]; }

# the options that a command takes
options_of() {
  case $1 in
    solve | resume) echo "--nodes --turns --workers --dossier --keep" ;;
    replan) echo "--from --now --nodes --turns --workers --dossier" ;;
    picture) echo "--now" ;;
    lot) echo "--number --ships --chambers" ;;
    trial) echo "--number --ships --chambers --nodes --turns" ;;
  esac
}

# the options that the script answers itself
own_options="-o --output --clock --seconds --title --progress --stats --drop --plan-text"

# those of them that a command takes
own_options_of() {
  echo "-o"
  if takes_clock "$1"; then echo "--clock"; fi
  if takes_seconds "$1"; then echo "--seconds"; fi
  if [ "$1" = picture ]; then echo "--title"; fi
  if searches "$1"; then echo "--progress --stats"; fi
  if [ "$1" = replan ]; then echo "--drop --plan-text"; fi
}

is_option() { [[ " --nodes --turns --workers --from --now --number --ships --chambers " == *" $1 "* ]]; }
is_flag() { [[ " --dossier --keep " == *" $1 "* ]]; }

# the least and the greatest number of an option
range_of() {
  case $1 in
    --nodes) echo "1 1000000" ;;
    --turns) echo "1 200000" ;;
    --workers) echo "1 8" ;;
    --from | --now) echo "0 1000000" ;;
    --number) echo "0 4294967295" ;;
    --ships) echo "1 96" ;;
    --chambers) echo "1 4" ;;
  esac
}
