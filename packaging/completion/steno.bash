# Completion of steno for bash: commands, options, values, folders, and the words of a query, inside
# the quotes of its argument, too.

# The options of a command; all of them where none is given yet.
_steno_options() {
  case $1 in
  once | query) echo '--ns --packets --bytes' ;;
  load) echo '--block --blocks --limit' ;;
  list | check | drill) ;;
  *) echo '--ns --packets --bytes --block --blocks --limit' ;;
  esac
}

# The values that an option or an operand may well have.
_steno_values() {
  case $1 in
  --packets) echo '1 10 100 1000 10000' ;;
  --bytes) echo '1000000 10000000 100000000' ;;
  --block) echo '4096 8192 16384 32768 65536 131072 262144 524288 1048576' ;;
  --blocks) echo '1 16 64 256 1024 4095' ;;
  --limit) echo '16 64 256 1024 4096 16384 65535' ;;
  N) echo '20000 1000000' ;;
  esac
}

# What may come next in a query after these words, which a blank parts. Of values these are some
# that show how they are written.
_steno_next() {
  local last=${1##* } before close='' opened=${1//[^(]/} closed=${1//[^)]/}
  before=${1% *} before=${before##* }
  [ "${#opened}" -le "${#closed}" ] || close=' )'
  case $last in
  '' | and | or | '&&' | '||' | '(') echo 'host net port ip vlan mpls icmp tcp udp before after (' ;;
  host) echo '10.0.0.1 fd00::1' ;;
  net) echo '10.0.0.0/8 192.168.0.0/16 fd00::/8' ;;
  mask) echo '255.0.0.0 255.255.0.0 255.255.255.0' ;;
  port) echo '22 53 80 123 443' ;;
  ip) echo proto ;;
  proto) echo '1 6 17 47 50 58 89 132' ;;
  vlan) echo '1 100 4095' ;;
  mpls) echo '16 1048575' ;;
  before | after) echo "15m 1h 24h $(date -u +%Y-%m-%dT%H:00:00Z)" ;;
  *)
    case $before,$last in
    before,*[mh] | after,*[mh]) echo ago ;;
    net,*/*) echo "and or$close" ;;
    net,*) echo mask ;;
    *) echo "and or$close" ;;
    esac
    ;;
  esac
}

# Completes the last word of a query; what is written before it stays as it is.
_steno_query() {
  local cur=$1 open='' text=$1 last kept words word found next
  case $cur in
  '') open="'" ;;
  \'* | \"*) text=${cur:1} ;;
  esac
  last=${text##*[[:space:]()]}
  kept=${text%"$last"}
  words=${kept//(/ ( } words=${words//)/ ) }
  read -r -a words <<<"$words"
  mapfile -t found < <(compgen -W "$(_steno_next "${words[*]}")" -- "$last")
  # bash closes the quote after a word that is the only one: with what may follow it, it is not.
  if [ "${#found[@]}" -eq 1 ] && [ "$text" != "$cur" ]; then
    word=${found[0]}
    mapfile -t next < <(compgen -W "$(_steno_next "${words[*]} $word")")
    if [ "${next[*]}" = proto ]; then
      word+=' proto'
      mapfile -t next < <(compgen -W "$(_steno_next "$word")")
    fi
    [ "${#next[@]}" -lt 2 ] || found=("${next[@]/#/$word }")
  fi
  for word in "${found[@]}"; do COMPREPLY+=("$open$kept$word"); done
  compopt -o nospace 2>/dev/null
}

_steno() {
  local cur=${COMP_WORDS[COMP_CWORD]} place word command='' operands=() given=' ' value='' ended=''
  COMPREPLY=()
  # An option's value may stand after a sign of equality, at which bash parts words.
  for ((place = 1; place < COMP_CWORD; place++)); do
    word=${COMP_WORDS[place]}
    if [ -n "$value" ] && [ "$word" = = ]; then continue
    elif [ -n "$value" ]; then value=''
    elif [ -n "$ended" ]; then operands+=("$word")
    else
      case $word in
      --) ended=yes ;;
      --packets | --bytes | --block | --blocks | --limit) value=$word given+="$word " ;;
      -?*) given+="$word " ;;
      *) operands+=("$word") ;;
      esac
    fi
  done
  command=${operands[0]:-}
  if [ -n "$value" ]; then
    [ "$cur" != = ] || cur=''
    COMPREPLY=($(compgen -W "$(_steno_values "$value")" -- "$cur"))
    return
  fi
  if [ -z "$ended" ] && [[ $cur == -* ]]; then
    for word in $(_steno_options "$command"); do
      [[ $given == *" $word "* || $word != "$cur"* ]] || COMPREPLY+=("$word")
    done
    return
  fi
  case $command,${#operands[@]} in
  ,0) COMPREPLY=($(compgen -W 'once load query list check drill' -- "$cur")) ;;
  once,1 | query,2) _steno_query "$cur" ;;
  load,1 | query,1 | list,1 | check,1 | drill,1)
    compopt -o filenames 2>/dev/null
    mapfile -t COMPREPLY < <(compgen -d -- "$cur")
    ;;
  drill,2) COMPREPLY=($(compgen -W "$(_steno_values N)" -- "$cur")) ;;
  esac
}

complete -F _steno steno
