# shellcheck shell=bash
# Completion in bash for slptool, slpda, slpcheck, slpctl, slpstat, slplog, slp, slpls, slpcast and slplint. It needs no other file: `. contrib/slptool.bash`.

# _slp_words: the words of the line before the cursor in words, the number of the last one in at. A colon parts no words.
_slp_words() {
  local line=${COMP_LINE:0:COMP_POINT}
  read -r -a words <<< "$line"
  case $line in *[[:blank:]]) words+=('') ;; esac
  at=$((${#words[@]} - 1))
}

# _slp_offer WORD..: offers those of the words that go on from what is typed. Bash completes what stands behind the last colon.
_slp_offer() {
  local typed=${words[at]} reply begun=
  case $COMP_WORDBREAKS in *:*) begun=${typed%"${typed##*:}"} ;; esac
  COMPREPLY=()
  while IFS= read -r reply; do COMPREPLY+=("${reply#"$begun"}"); done < <(compgen -W "$*" -- "$typed")
}

# _slp_files PATTERN: offers folders, and files whose names fit
_slp_files() {
  local typed=${words[at]}
  compopt -o filenames 2> /dev/null
  mapfile -t COMPREPLY < <(
    compgen -d -- "$typed"
    compgen -f -X "!$1" -- "$typed"
  )
}

# The directories, scopes and types that are offered: those of the variables that slpctl and slp read, and what is common.
_slp_addresses() { _slp_offer "${SLPDA_ADDRESS:-127.0.0.1:427}" 127.0.0.1:427; }
_slp_scopes() { _slp_offer "${SLPDA_SCOPES:-DEFAULT}" DEFAULT; }
_slp_types() {
  _slp_offer service:directory-agent service:printer service:printer:lpr service:printer:ipp service:nfs service:smb service:ldap \
    service:http service:https service:ftp service:ssh
}

_slptool() {
  local words at
  _slp_words
  case $at in
    1) _slp_addresses ;;
    2) _slp_offer find attributes types register keep withdraw ;;
    *)
      case ${words[2]}:$at in
        find:3 | attributes:3 | register:4 | keep:4) _slp_types ;;
        types:3 | find:4 | attributes:4 | withdraw:4 | register:5 | keep:5) _slp_scopes ;;
        register:6 | keep:6) _slp_offer 3600 10800 65535 ;;
        register:3 | keep:3 | withdraw:3) _slp_offer service: ;;
      esac
      ;;
  esac
}

_slpda() {
  local words at
  _slp_words
  [ "$at" != 1 ] || _slp_files '*.toml'
}

_slpctl() {
  local words at
  _slp_words
  case ${words[at - 1]} in
    -p | -l) _slp_files '*' ;;
    -c) _slp_files '*.toml' ;;
    -a) _slp_addresses ;;
    -s) _slp_scopes ;;
    -n) _slp_offer slpda.service ;;
    -t) _slp_offer 3 10 30 ;;
    *) _slp_offer reload sweep stop restart status check -p -l -n -c -a -s -t -f --help ;;
  esac
}

_slpstat() {
  local words at
  _slp_words
  case ${words[at - 1]} in
    -n) _slp_offer 3 10 30 ;;
    *) _slp_offer -p -n --help ;;
  esac
}

_slplog() {
  local words at
  _slp_words
  case ${words[at - 1]} in
    -o | -m) _slp_files '*' ;;
    -i) _slp_offer 5 15 60 ;;
    *) _slp_offer -o -q -m -i --help ;;
  esac
}

_slp() {
  local words at
  _slp_words
  case ${words[at - 1]} in
    -u | --unicastifs) _slp_addresses ;;
    -s | --scope) _slp_scopes ;;
    -t | --time) _slp_offer 3600 10800 65535 ;;
    -l | --lang) _slp_offer en ;;
    findsrvs | findattrs) _slp_types ;;
    register | deregister) _slp_offer service: ;;
    *)
      case " ${words[*]:1:at-1} " in
        *' find'* | *' register '* | *' deregister '*) ;;
        *) _slp_offer findsrvs findattrs findsrvtypes findscopes findda register deregister -u -s -t -l -r -T -v --help ;;
      esac
      ;;
  esac
}

_slpls() {
  local words at
  _slp_words
  case ${words[at - 1]} in
    -s) _slp_scopes ;;
    -t) _slp_types ;;
    -l) _slp_offer en ;;
    *) case ${words[at]} in -*) _slp_offer -a -s -t -l --help ;; *) _slp_addresses ;; esac ;;
  esac
}

_slpcast() {
  local words at
  _slp_words
  case ${words[at - 1]} in
    -g) _slp_offer 239.255.255.253:427 ;;
    -t) _slp_offer 1 8 255 ;;
    -e) _slp_offer 10800 ;;
    -w) _slp_offer 5 30 60 ;;
    -i) ;;
    *) case ${words[at]} in -*) _slp_offer -i -g -t -e -w --help ;; *) _slp_addresses ;; esac ;;
  esac
}

_slplint() {
  local words at
  _slp_words
  [ "$at" != 1 ] || _slp_offer attributes predicate escape -l -t --help
}

complete -F _slptool slptool
complete -F _slpda slpda slpcheck
complete -F _slpctl slpctl
complete -F _slpstat slpstat
complete -F _slplog slplog
complete -F _slp slp
complete -F _slpls slpls
complete -F _slpcast slpcast
complete -F _slplint slplint
