# Completes the words of unitroot in bash: commands and options as its help has them, and units and
# paths as the root has them.
# shellcheck shell=bash disable=SC2034

# The lines of the help with commands: the first word of each.
_unitroot_commands() {
  unitroot --help |
    awk '/^Options:/ { exit } /^[A-Z].*ommands/ { on = 1; next } on && /^  [a-z]/ { print $1 }'
}

_unitroot_options() {
  unitroot --help | awk '/^Exit status:/ { exit } /^Options:/ { on = 1 } on' |
    grep -oE -- '(^|[ ,])--[a-z][a-z-]*(\[?=)?' | sed 's/^[ ,]*//; s/\[=$//'
}

# The units of a root with a prefix.
_unitroot_units() {
  unitroot "$@" --no-legend list-unit-files 2>/dev/null | awk '{ print $1 }'
}

_unitroot() {
  local cur prev words cword split word option='' command='' root='' values=''
  _init_completion -s || return
  for word in "${words[@]:1:cword-1}"; do
    word=$option$word
    option=
    case $word in
      --root=*) root=${word#--root=} ;;
      --root | --as | --rows | --unit | --operator | --since | --lines | --with | --max | \
        --history | --preset-mode | --type | --state | --legend | -n | -t) option=$word= ;;
      -*) ;;
      *) [ -n "$command" ] || command=$word ;;
    esac
  done
  root=${root:-${UNITROOT_ROOT-}}
  case $prev in
    --root | --history)
      _filedir -d
      return
      ;;
    --unit)
      mapfile -t COMPREPLY < <(compgen -W "$(_unitroot_units "--root=$root")" -- "$cur")
      return
      ;;
    --rows) values='history run' ;;
    --preset-mode) values='full enable-only disable-only' ;;
    --type | -t)
      values='service socket device mount automount swap target path timer slice scope'
      ;;
    --state)
      values='masked masked-runtime alias enabled enabled-runtime linked linked-runtime static'
      values+=' indirect disabled bad'
      ;;
    --legend) values='yes no' ;;
    --as | --operator | --since | --lines | --with | --max | -n) return ;;
  esac
  if [ -n "$values" ]; then
    mapfile -t COMPREPLY < <(compgen -W "$values" -- "$cur")
    return
  fi
  if $split; then return; fi
  case $cur in
    -*)
      mapfile -t COMPREPLY < <(compgen -W "$(_unitroot_options)" -- "$cur")
      [[ ${COMPREPLY-} == *= ]] && compopt -o nospace
      return
      ;;
  esac
  case $command in
    '') mapfile -t COMPREPLY < <(compgen -W "$(_unitroot_commands)" -- "$cur") ;;
    run | apply | diff) _filedir ;;
    link | place | remove)
      mapfile -t COMPREPLY < <(compgen -f -- "$root$cur")
      COMPREPLY=("${COMPREPLY[@]#"$root"}")
      compopt -o filenames -o nospace
      ;;
    capture | preset-all | get-default | keep | log | show | undo | redo | recover | forget) ;;
    *) mapfile -t COMPREPLY < <(compgen -W "$(_unitroot_units "--root=$root")" -- "$cur") ;;
  esac
}

complete -F _unitroot unitroot
