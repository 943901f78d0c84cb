# shellcheck shell=bash
# What examples/group/run does with nodes: free ports, waiting, keys, and the processes that it has
# started. It sets `program` to the path of pgroup.

# The greatest number of turns: a node that is to run until it is ended.
# shellcheck disable=SC2034
always=4294967295

# The process of each node that runs, by a name that the script gives it.
declare -A nodes=()

# free_ports COUNT: prints COUNT UDP ports of 127.0.0.1 that nobody has bound, one a line. They are
# from the first to the last of PGROUP_PORTS, such as 20000-25999, which the gate gives its scripts;
# or else below the range from which the system gives ports to those that ask for any.
free_ports() {
  local taken port first last found=0
  IFS=- read -r first last <<< "${PGROUP_PORTS:-20000-31999}"
  taken=$(< /proc/net/udp)
  while [ "$found" -lt "$1" ]; do
    port=$((first + RANDOM % (last - first + 1)))
    if [[ $taken != *"$(printf ':%04X ' "$port")"* ]]; then
      taken+=$(printf ':%04X ' "$port")
      found=$((found + 1))
      echo "$port"
    fi
  done
}

# is_bound PORT: succeeds if a process has bound this UDP port.
is_bound() { [[ $(< /proc/net/udp) == *"$(printf ':%04X 00000000:0000 ' "$1")"* ]]; }

# wait_until COMMAND..: waits until a command succeeds. It fails after a minute.
wait_until() {
  local end=$((SECONDS + 60))
  until "$@"; do
    [ "$SECONDS" -lt "$end" ] || return 1
    sleep 0.01
  done
}

# start_node NAME CONSOLE WORD..: starts `pgroup node WORD..` in the background. Its console is the
# file CONSOLE, which goes on where it stopped.
start_node() {
  local name=$1 console=$2
  shift 2
  "$program" node "$@" < /dev/null >> "$console" &
  nodes[$name]=$!
}

# kill_node NAME: kills a node by SIGKILL, and waits until it has ended.
kill_node() {
  kill -9 "${nodes[$1]}" 2> /dev/null || true
  wait "${nodes[$1]}" 2> /dev/null || true
  unset "nodes[$1]"
}

# Kills all nodes that still run.
kill_nodes() {
  local name
  for name in "${!nodes[@]}"; do
    kill_node "$name"
  done
}

# type_at PORT TEXT: types at most 64 bytes at the node whose keys come to this port. It is one
# datagram, as bash ends one after each line feed.
type_at() { printf '%s' "$2" > "/dev/udp/127.0.0.1/$1"; }
