# What cases of `dispatch run` share whose venue NYSE is played by accept.py. `nyse` and `arca` write tables of a desk's file,
# and `talk` runs a day and hands it each line of standard input when it is time for it (talk.py).
export ACTS=$ROOM/acts
nyse() { printf '[[venue]]\nname = "NYSE"\naddress = "127.0.0.1:%s"\ntarget = "NYSE"\nsender = "DESK"\nheartbeat = %s\n' $PORT ${1:-30}; }
arca() { printf '[[venue]]\nname = "ARCA"\naddress = "simulated"\ntarget = "ARCA"\nsender = "DESK"\nfill = 60\n'; }
listens() { grep -q ":$(printf %04X $PORT) 00000000:0000 0A" /proc/net/tcp; }
# An exchange that does these steps, and listens already. It ends with the case.
accept() { mkfifo $ACTS; python3 scripts/accept.py $PORT "$@" <> $ACTS & until listens; do sleep 0.05; done; }
# What `say` of that exchange sends, a message for each word.
export SAYS=$ROOM/says
says() { printf '%s\n' "$@" > $SAYS; }
talk() { python3 scripts/talk.py "$@"; }
