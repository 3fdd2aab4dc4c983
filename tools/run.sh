# How the program runs, also where it is installed: what the launcher does around it that it can't do itself. It ends a desk and a replay by the end of their input, tells a
# watch how large its terminal is, and joins multicast groups. Read by ./sacn and by a package's /usr/bin/sacn, which say in $sacn_join where sacn-join is.

say() { echo "sacn: $*" >&2; }

# Whether standard input is of use: a desk with a script, or a recording that is played, as one that a service starts, may have none.
is_ordered() {
  local word
  [ /proc/self/fd/0 -ef /dev/null ] || return 0
  if [ "$2" = replay ]; then return 1; fi
  for word in "$@"; do case $word in --script | --script=*) return 1 ;; esac; done
}

# Whether the word is that of a command which is ordered by its input.
takes_orders() { [ "$1" = desk ] || [ "$1" = replay ]; }

# Copies the orders of a command. A replay's input that is no terminal, ends at once and had none isn't ended, so that a signal ends it later.
copy_orders() {
  local first
  if [ "$1" = replay ] && ! [ -t "$in" ]; then
    if IFS= read -r -N 1 first <&"$in"; then
      printf %s "$first"
    elif [ $((SECONDS - since)) -le 1 ]; then
      exec sleep infinity
    fi
  fi
  exec cat <&"$in"
}

# Gives a desk or a replay its input until the launcher lets go of its end of a pipe, or is gone: an end of input in its first second is none, so that
# it comes after that second. A line on the pipe says that it has ended by itself.
feed_orders() {
  local copy=
  trap '' INT TERM HUP QUIT
  exec {life}>&-
  if is_ordered "$@"; then
    copy_orders "$2" &
    copy=$!
    exec >&-
  fi
  exec {in}<&-
  if ! read -r <&"$lives"; then
    while [ $((SECONDS - since)) -lt 3 ]; do sleep 0.1; done
  fi
  if [ -n "$copy" ]; then kill -KILL "$copy" 2>/dev/null || true; fi
}

# Gives a screen the keys of its terminal until the launcher lets go of its end of a pipe, or is gone. (What is behind another job on the terminal is stopped where it
# reads keys: so is this copy then, and not the program.) Where the launcher is gone, the terminal gets its modes back here.
feed_keys() {
  local copy
  trap '' INT TERM HUP QUIT
  exec {life}>&-
  cat <&"$in" &
  copy=$!
  exec >&-
  read -r <&"$lives" || true
  kill -KILL "$copy" 2>/dev/null || true
  # (A shell that is killed closes what it had open before its children have another parent: its standard output was there.)
  if ! [ -e "/proc/$shell/fd/1" ] && is_in_front; then stty "$modes" <&"$in" 2>/dev/null || true; fi
}

# Says in $terminal which of standard input and output is a terminal, if one is.
note_terminal() {
  terminal=
  if [ -t 0 ]; then terminal=0; elif [ -t 1 ]; then terminal=1; fi
}

# Whether that terminal has gone.
has_hung_up() { [ -n "$terminal" ] && ! [ -t "$terminal" ]; }

# Looks after the terminal of a screen until the launcher lets go of its end of the pipe at standard input, or is gone: where the job goes on after a stop, or the terminal
# has another size. A shell that waits takes the second alone of two signals that come at once, as TERM and CONT; so the one that is to end hears none that ends nothing.
keep_terminal() {
  local end is_looking= noted=
  trap '' INT TERM HUP QUIT
  exec {life}>&-
  if [ -n "${said-}" ]; then exec {said}>&-; fi
  cat <&0 >/dev/null &
  end=$!
  exec <&"$typed" {typed}<&-
  trap look_again WINCH CONT
  # (The terminal may have another size by now.)
  look_again
  while kill -0 "$end" 2>/dev/null; do wait "$end" || true; done
}

# Looks at the terminal. A signal that comes meanwhile has it look once more afterwards: what was seen last is told last.
look_again() {
  noted=1
  while [ -n "$noted" ] && [ -z "$is_looking" ]; do
    is_looking=1 noted=
    hush_keys
    tell_change_of_size
    is_looking=
  done
}

# Has it looked after, where there is anything to do; `typed` is the terminal at standard input.
begin_keeping() {
  local typed
  if [ -z "$modes${SACN_SIZE-}" ]; then return 0; fi
  exec {typed}<&0
  exec {kept}> >(keep_terminal)
  keeping=$!
  exec {typed}<&-
}

# Looks no more after it.
end_keeping() {
  if [ -n "$keeping" ]; then
    exec {kept}>&-
    wait "$keeping" 2>/dev/null || true
  fi
}

# Waits for the process in `pid`, whose status this shell has then. Its input ends with this shell's end of the pipe in `life`, which INT, TERM, HUP and QUIT close; a line on it
# says that the process has ended by itself. The word is done then, too.
await() {
  local also=${1-:} last status=0
  # (Where it comes twice, the pipe is closed already.)
  trap 'caught=1; exec {life}>&-; $also' INT TERM HUP QUIT
  if [ -n "$caught" ]; then exec {life}>&-; fi
  # (A wait that a signal cuts short is made again: the shell keeps the status of a process that ended meanwhile. Of two signals at once the second may cut a later wait
  # short, whose status then is that signal's: one of these counts where it comes twice.)
  while caught= last=$status status=0; do
    wait "$pid" || status=$?
    if [ -z "$caught" ] && { [ "$status" -le 128 ] || [ "$status" = "$last" ]; }; then break; fi
  done
  { echo >&"$life"; } 2>/dev/null || true
  if [ -n "${feeder-}" ]; then
    wait "$feeder" 2>/dev/null || true
    if [ "$status" -gt 128 ]; then leave_screen; fi
  fi
  end_keeping
  loud_keys
  # (What edits lines and is killed leaves the terminal as it had it.)
  if [ -n "${saved-}" ] && [ "$status" -gt 128 ] && is_in_front; then stty "$saved" 2>/dev/null || true; fi
  exit "$status"
}

# Runs a program whose clean end is the end of its standard input: INT, TERM, HUP and QUIT end its input, and not the program, which
# then ends what it has lit. A second one changes nothing. What the program waits for is held by this process alone, so that it comes
# to its end also where this one is killed.
feed() {
  local life lives in out pid status since=$SECONDS caught= modes= feeder= kept= keeping= shell=$BASHPID hush=(-icanon -echo min 1 time 0)
  trap 'caught=1' INT TERM HUP QUIT
  if [ "$2" = watch ]; then quiet_keys "$@"; fi
  # (a desk reads a pipe: whether a terminal is behind that it is told)
  if [ "$2" = desk ] && [ -t 0 ]; then export SACN_TYPED=terminal; fi
  exec {in}<&0
  # A pipe of which both ends are here.
  exec {life}<> <(:)
  exec {lives}<"/proc/self/fd/$life"
  # (A desk or a replay is ordered by its input, and a screen steered by keys; else a watch or a recording only waits for the end of it, whatever stands there.)
  if takes_orders "$2"; then
    exec {out}< <(feed_orders "$@")
  elif [ -n "$modes" ]; then
    export SACN_KEYS=yes
    exec {out}< <(feed_keys)
    feeder=$!
  else
    export SACN_KEYS=no
    exec {out}<&"$lives"
  fi
  (trap '' INT TERM HUP QUIT; exec "$@" <&"$out" {in}<&- {out}<&- {life}<&- {lives}<&-) &
  pid=$!
  exec {out}<&- {in}<&- {lives}<&-
  if [ "$2" = watch ]; then begin_keeping; fi
  await
}

# Whether rlwrap, where it is installed, edits the lines of a desk: those that are typed on a terminal, and answered on one.
# (It takes no terminal that says no size, and it would take the keys of one on which another job is in front.)
edits_lines() {
  local rows columns
  [ -t 0 ] && [ -t 1 ] && [ "${TERM-}" != dumb ] && command -v rlwrap >/dev/null && size_of_terminal && is_in_front
}

# Runs a desk in the terminal that rlwrap makes for it. It ends well as it does alone, and also where what started rlwrap is told to end, or is gone: then the pipe of
# which that has the other end ends without a line.
attend() {
  local lives=$1
  shift
  (trap '' INT TERM HUP QUIT; if ! read -r <&"$lives"; then kill -TERM $$; fi) >/dev/null 2>&1 &
  exec {lives}<&-
  feed "$@"
}

# Tells rlwrap that its terminal has gone, where it has: else that would look for keys there for good.
tell_hang_up() { if has_hung_up; then exec {life}>&-; kill -HUP "$pid" 2>/dev/null || true; fi; }

# Runs a desk under rlwrap, which gives its terminal arrows, and a history that is kept. INT, TERM, HUP and QUIT go around it: it hears nothing as long as
# Ctrl-S holds its terminal.
edit_lines() {
  local room=${XDG_STATE_HOME:-${HOME-}/.local/state}/sacn history=(--history-filename /dev/null --histsize -300) life lives in pid caught= status modes= terminal= keeping= saved
  trap 'caught=1' INT TERM HUP QUIT
  note_terminal
  saved=$(stty -g 2>/dev/null) || saved=
  if [ -n "${XDG_STATE_HOME-}${HOME-}" ] && mkdir -p "$room" 2>/dev/null && [ -w "$room" ]; then history=(--history-filename "$room/desk_history"); fi
  exec {in}<&0
  exec {life}<> <(:)
  exec {lives}<"/proc/self/fd/$life"
  rlwrap --no-warnings --ansi-colour-aware --command-name sacn-desk "${history[@]}" \
    bash -eu -c '. "$0"; attend "$@"' "${BASH_SOURCE[0]}" "$lives" "$@" <&"$in" {in}<&- {life}<&- &
  pid=$!
  exec {in}<&- {lives}<&-
  await tell_hang_up
}

# Whether it serves a page, until it is stopped.
serves() {
  local word
  for word in "$@"; do case $word in --page | --page=*) return 0 ;; esac; done
  return 1
}

# The device of the default route, as Linux's table has it; nothing where there is none.
default_device() {
  local name destination
  while read -r name destination _; do
    if [ "$destination" = 00000000 ]; then echo "$name"; return; fi
  done </proc/self/net/route
}

# Takes `--join`, `--join DEVICE` and `--join=DEVICE` out of a command's words: into `words` and `device`. The word behind it is its device where the machine has one of that
# name, or where it is no option and no file; the file that a recording makes isn't there yet, and is told by its dot or slash.
split_join() {
  local command=$1
  words=() device= has_join=
  while [ $# != 0 ]; do
    case $1 in
      --join=*) has_join=1 device=${1#--join=} ;;
      --join)
        has_join=1
        if [ $# -gt 1 ] && { [ -e "/sys/class/net/$2" ] || { [ "${2#-}" = "$2" ] && [ ! -e "$2" ] && { [ "$command" != record ] || [[ $2 != *[./]* ]]; }; }; }; then device=$2; shift; fi
        ;;
      *) words+=("$1") ;;
    esac
    shift
  done
}

# What this machine knows of a host's addresses of IPv4, the first in front. Without -A, which older ones lack, that is nothing where the machine has no address itself
# but the loopback's, as with its cable out.
addresses_of() {
  local status=0
  getent -A ahostsv4 "$1" 2>/dev/null || status=$?
  # (2: it knows none)
  case $status in 0 | 2) ;; *) getent ahostsv4 "$1" 2>/dev/null || true ;; esac
}

# Puts into `resolved` what `--to` names, `[UNIVERSES=]HOST[:PORT]`, with the address of a host that is named; what is no name is left to the program. A name that
# this machine doesn't know ends the run.
resolve_host() {
  local before='' host=$1 port='' address
  resolved=$1
  case $host in *=*) before=${host%%=*}= host=${host#*=} ;; esac
  case $host in *:*) port=:${host##*:} host=${host%:*} ;; esac
  [[ $host =~ ^[A-Za-z0-9_][A-Za-z0-9._-]*$ ]] && ! [[ $host =~ ^[0-9.]+$ ]] || return 0
  if ! command -v getent >/dev/null; then
    say "--to $1: names of hosts are looked up by getent, which isn't here: give the address of $host, as 10.0.0.5"
    exit 2
  fi
  if ! read -r address _ < <(addresses_of "$host"); then
    say "--to $1: this machine knows no host $host with an IPv4 address: give its address, as 10.0.0.5, or a line \`10.0.0.5 $host\` to /etc/hosts"
    exit 2
  fi
  resolved=$before$address$port
}

# Puts the words of a desk or a replay into `words`, with addresses in place of the names of hosts.
resolve_hosts() {
  local resolved
  words=()
  while [ $# != 0 ]; do
    case $1 in
      --to=*)
        resolve_host "${1#--to=}"
        words+=("--to=$resolved")
        ;;
      --to)
        words+=("$1")
        if [ $# -gt 1 ]; then
          resolve_host "$2"
          words+=("$resolved")
          shift
        fi
        ;;
      *) words+=("$1") ;;
    esac
    shift
  done
}

# What the words give an option, each on a line.
given() {
  local option=$1
  shift
  while [ $# != 0 ]; do
    case $1 in
      "$option") if [ $# -gt 1 ]; then echo "$2"; fi ;;
      "$option"=*) echo "${1#*=}" ;;
    esac
    shift
  done
}

# The files among a gateway's words, each on a line: those that are no option, nor an option's value.
setups_among() {
  while [ $# != 0 ]; do
    case $1 in
      --listen | --from | --widget | --page | --frames | --seconds) shift ;;
      -?*) ;;
      *) echo "$1" ;;
    esac
    [ $# = 0 ] || shift
  done
}

# So many universes, from 1 on, a watch or a recording joins that is told of none; and so many at most that are named.
first_universes=128
most_universes=1024

# Puts standard input, as far as the program reads it, into a file without a name, which is standard input from then on, so that it can be read twice.
keep_input() {
  local copy
  copy=$(mktemp) || exit 4
  # (one octet more than the program takes)
  head -c 1048577 >"$copy"
  exec <"$copy"
  rm "$copy"
}

# Joins the groups that a gateway, a watch or a recording wants, for as long as this shell lives or what it becomes. What that is the program says where it hears nothing.
join_groups() {
  local program=$1 command=$2 groups=(239.255.250.214) lists=() setups=() port setup universe line joined
  shift 2
  line=$(given --listen "$@")
  if [ -n "${line//0.0.0.0/}" ]; then
    say "--join beside --listen: what hears at an address of its own hears no group; leave --listen out, and name senders by --from where only some are to be heard"
    exit 2
  fi
  if [ -z "$device" ]; then device=$(default_device); fi
  if [ -z "$device" ]; then
    say "--join: this machine has no default route, so it doesn't tell which device: name one, as --join eth0 (\`ip -brief link\` lists them)"
    exit 4
  fi
  if [ ! -x "$sacn_join" ]; then
    say "--join: ${sacn_join##*/} isn't there: it comes with the release, or \`cc -O2 -o $sacn_join runtime/join.c\` builds it"
    exit 4
  fi
  if [ "$command" = gateway ]; then
    mapfile -t setups < <(setups_among "$@")
    joined="the discovery group and the setup's universes"
    if [ "${#setups[@]}" -gt 1 ]; then joined="the discovery group and the setups' universes"; fi
    for setup in ${setups[@]+"${setups[@]}"}; do
      if [ "$setup" = - ]; then
        keep_input
        setup=/proc/self/fd/0
      fi
      # (a faulty setup joins none: the gateway itself tells its fault)
      while read -r line; do
        if [[ $line =~ (239\.255\.[0-9]+\.[0-9]+) ]]; then groups+=("${BASH_REMATCH[1]}"); fi
      done < <("$program" groups "$setup" --device lo 2>/dev/null || true)
    done
  else
    # (the program refuses what is no universe or row of them)
    for line in $(given --universe "$@"); do
      [[ $line =~ ^([0-9]{1,5})(-([0-9]{1,5}))?$ ]] || continue
      for ((universe = 10#${BASH_REMATCH[1]}; universe <= 10#${BASH_REMATCH[3]:-${BASH_REMATCH[1]}} && universe < 64000; universe++)); do
        groups+=("239.255.$((universe / 256)).$((universe % 256))")
      done
    done
    if [ "${#groups[@]}" -gt $((most_universes + 1)) ]; then
      say "--join: $((${#groups[@]} - 1)) universes are named, and at most $most_universes are joined: name fewer by --universe"
      exit 2
    fi
    joined=$(given --universe "$@" | paste -s -d ' ')
    case $joined in *[\ -]*) joined="universes ${joined// /, }" ;; *) joined="universe $joined" ;; esac
    joined="the discovery group and $joined; --universe names others"
    port=$(given --port "$@" | tail -n 1)
    if [ "${#groups[@]}" = 1 ]; then
      # (few consoles list what they send in the standard's form)
      lists=(--lists "${port:-5568}")
      joined="the discovery group, universes 1 to $first_universes and those that sources list; --universe 1-512 joins others"
      for ((universe = 1; universe <= first_universes; universe++)); do groups+=("239.255.0.$universe"); done
    fi
  fi
  "$sacn_join" ${lists[@]+"${lists[@]}"} $$ "$device" "${groups[@]}" || exit $?
  export SACN_JOINED="$device joined $joined"
}

# Whether a socket of this machine hears at a port what is sent to any of its addresses: such a one would lose packets to another one. What hears a group
# or one address alone keeps what is sent there.
has_receiver() {
  local port address
  printf -v port '%04X' "$1"
  while read -r _ address _; do
    case $address in
      00000000:"$port" | 00000000000000000000000000000000:"$port") return 0 ;;
    esac
  done < <(cat /proc/self/net/udp /proc/self/net/udp6 2>/dev/null)
  return 1
}

# Ends a watch or a recording that joins where another receiver has its port, unless it is to hear beside it. (The program itself can't tell: what joins for it hears lists
# at that port.)
keep_beside() {
  local word port name="a watch" way="Start the gateway with --page PORT or --watch"
  if [ "$1" = record ]; then name="a recording" way="Record on another machine, or by tcpdump, which takes nothing away"; fi
  for word in "$@"; do [ "$word" != --beside ] || return 0; done
  port=$(given --port "$@" | tail -n 1)
  [[ ${port:=5568} =~ ^[0-9]{1,5}$ ]] || return 0
  if has_receiver "$((10#$port))"; then
    say "port $port has a receiver on this machine: of what is sent to this machine alone each stream goes to one receiver, so $name would take it away. $way; or add --beside here, where all comes by multicast"
    exit 4
  fi
  words+=(--beside)
}

# What the system says of this shell, into `stat`: its state, parent, group, session, terminal, and the group that is in front there.
note_stat() {
  local line
  read -r line <"/proc/$BASHPID/stat"
  # (they stand behind its name)
  read -r -a stat <<<"${line##*) }"
}

# Whether this shell is in front on its terminal.
is_in_front() {
  local stat
  note_stat
  [ "${stat[2]}" = "${stat[5]}" ]
}

# Takes the keys of the terminal for the screen that a watch or a gateway draws, each as it is pressed, and keeps them off it; Ctrl-C stays what it is. What the terminal
# was told before stands in `modes`, empty where nothing has to be told again.
quiet_keys() {
  local word
  for word in "$@"; do case $word in --plain | --each | --json | --audit | --page | --page=*) return 0 ;; esac; done
  if [ -t 0 ] && [ -t 1 ] && is_in_front && modes=$(stty -g 2>/dev/null); then hush_keys; fi
}

# Tells it so, also after a stop.
hush_keys() {
  if [ -n "$modes" ] && is_in_front; then stty "${hush[@]}" 2>/dev/null || true; fi
}

# Shows what the terminal showed before a screen, where what drew that can't any more.
leave_screen() { printf '\033[0m\033[?7h\033[?25h\033[?1049l' 2>/dev/null || true; }

# Gives the terminal back as it was, without what was typed unseen; nothing where it is another job's by now, or gone.
loud_keys() {
  if [ -z "$modes" ] || ! is_in_front; then return 0; fi
  if stty -icanon min 0 time 0 2>/dev/null; then dd bs=4096 of=/dev/null 2>/dev/null || true; fi
  stty "$modes" 2>/dev/null || true
}

# The rows and columns of the terminal at standard output, into `rows` and `columns`, where it has any.
size_of_terminal() {
  local terminal size=1
  # (what runs inside the parentheses has a pipe for its output)
  exec {terminal}<&1
  if read -r rows columns < <(stty size <&"$terminal" 2>/dev/null) && [ "$rows" -gt 0 ] && [ "$columns" -gt 0 ]; then size=0; fi
  exec {terminal}<&-
  return "$size"
}

# Tells what draws a screen how large its terminal is, which it can't ask: now, and in a file without a name at each change of size.
tell_size() {
  local rows columns copy
  unset SACN_SIZE
  [ -t 1 ] || return 0
  # (a terminal may have none yet)
  if size_of_terminal; then export LINES=$rows COLUMNS=$columns; fi
  copy=$(mktemp 2>/dev/null) || return 0
  exec {size_file}<>"$copy"
  rm -f "$copy"
  export SACN_SIZE=/proc/self/fd/$size_file
}

# Tells what prints lines for a terminal how wide that is now.
tell_width() {
  local rows columns
  if [ -t 1 ] && size_of_terminal; then export LINES=$rows COLUMNS=$columns; fi
}

# Tells it the size that its terminal has now, where that can be written.
tell_change_of_size() {
  local rows columns
  if [ -n "${SACN_SIZE-}" ] && size_of_terminal; then { echo "$rows $columns" >"$SACN_SIZE"; } 2>/dev/null || true; fi
}

# Whether a gateway draws a screen on the terminal at standard output.
draws() {
  local word
  [ -t 1 ] || return 1
  for word in "$@"; do if [ "$word" = --watch ]; then return 0; fi; done
  return 1
}

# Whether one of a gateway's setups is read from standard input.
reads_setup() {
  local setup
  while read -r setup; do
    if [ "$setup" = - ]; then return 0; fi
  done < <(setups_among "$@")
  return 1
}

# The most lines of what a gateway said beside its screen that are shown once the screen is left.
most_said=500

# Runs a gateway that draws on this terminal, and tells it how large that is. A signal ends it as it ends any gateway, and the terminal then shows what it showed before, and
# below that the last lines of what the gateway said, where that would have come to the terminal too.
draw() {
  local in life lives keys feeder= shell=$BASHPID hush=(-icanon -echo min 1 time 0) pid status copy lines said= keeper signal= modes= kept= keeping=
  trap 'signal=INT' INT
  trap 'signal=TERM' TERM
  trap 'signal=HUP' HUP
  trap 'signal=QUIT' QUIT
  # (a setup that is typed there is read line by line)
  if reads_setup "${@:3}"; then hush=(-echo); fi
  quiet_keys "$@"
  exec {in}<&0
  # A pipe of which both ends are here.
  exec {life}<> <(:)
  exec {lives}<"/proc/self/fd/$life"
  if [ -n "$modes" ] && ! reads_setup "${@:3}"; then
    export SACN_KEYS=yes
    exec {keys}< <(feed_keys)
    feeder=$!
    exec {in}<&-
    in=$keys
  else
    export SACN_KEYS=no
  fi
  exec {lives}<&-
  if [ -t 2 ] && copy=$(mktemp 2>/dev/null); then
    exec {lines}<>"$copy"
    rm -f "$copy"
    exec {said}> >(trap '' INT TERM HUP QUIT; exec {life}>&-; exec tail -n "$most_said" >&"$lines")
    keeper=$!
  fi
  # (what a shell begins in the background passes over INT and QUIT, and so it is told to end by TERM)
  if [ -n "$said" ]; then "$@" <&"$in" 2>&"$said" {in}<&- {said}>&- {life}>&- & else "$@" <&"$in" {in}<&- {life}>&- & fi
  pid=$!
  exec {in}<&-
  trap 'signal=INT; kill -TERM "$pid" 2>/dev/null || true' INT
  trap 'signal=TERM; kill -TERM "$pid" 2>/dev/null || true' TERM
  trap 'signal=HUP; kill -TERM "$pid" 2>/dev/null || true' HUP
  trap 'signal=QUIT; kill -TERM "$pid" 2>/dev/null || true' QUIT
  begin_keeping
  if [ -n "$signal" ]; then kill -TERM "$pid" 2>/dev/null || true; fi
  while status=0; do
    wait "$pid" || status=$?
    kill -0 "$pid" 2>/dev/null || break
  done
  if [ "$status" -gt 128 ]; then leave_screen; fi
  if [ -n "$said" ]; then
    exec {said}>&-
    wait "$keeper" || true
    cat "/proc/self/fd/$lines" >&2 2>/dev/null || true
  fi
  { echo >&"$life"; } 2>/dev/null || true
  if [ -n "$feeder" ]; then wait "$feeder" 2>/dev/null || true; fi
  end_keeping
  loud_keys
  if [ -n "$signal" ]; then
    trap - "$signal"
    kill -s "$signal" $$
  fi
  exit "$status"
}

# In so much stack, in kB, every command runs, also with a large environment.
wanted_stack=1024

# Raises a smaller limit of the stack, where the machine lets that be.
raise_stack() {
  local limit
  limit=$(ulimit -S -s)
  [ "$limit" != unlimited ] && [ "$limit" -lt "$wanted_stack" ] || return 0
  ulimit -S -s "$wanted_stack" 2>/dev/null ||
    say "the limit of the stack is $limit kB here and can't be raised (\`ulimit -H -s\`): with less than $wanted_stack the program may end with a segmentation fault"
}

# Runs the program by its words, and becomes it where nothing has to be done around it.
run() {
  local program=$1 words=() device has_join
  shift
  # Where standard input is closed, nothing else may get its number.
  [ -e /proc/self/fd/0 ] || exec </dev/null
  raise_stack
  unset SACN_JOINED SACN_TYPED SACN_KEYS
  if [ $# = 0 ] && [ -t 0 ]; then say "reads one datagram as hexadecimal digits, up to Ctrl-D; \`sacn --help\` lists the commands"; fi
  case ${1-} in
    desk | replay)
      resolve_hosts "$@"
      set -- "${words[@]}"
      ;;
    gateway | watch | record)
      split_join "$@"
      if [ -n "$has_join" ] && [ "$1" != gateway ]; then keep_beside "$@"; fi
      set -- "${words[@]}"
      if [ -n "$has_join" ]; then join_groups "$program" "$@"; fi
      ;;
  esac
  case ${1-} in
    desk) tell_width; if edits_lines; then edit_lines "$program" "$@"; else feed "$program" "$@"; fi ;;
    watch) tell_size; feed "$program" "$@" ;;
    record | replay) feed "$program" "$@" ;;
    gateway) if draws "$@"; then tell_size; draw "$program" "$@"; else tell_width; exec "$program" "$@"; fi ;;
    explain) if serves "$@"; then feed "$program" "$@"; else exec "$program" "$@"; fi ;;
    *) exec "$program" "$@" ;;
  esac
}
