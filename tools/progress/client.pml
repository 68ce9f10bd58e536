/* A client's session over a connection: of crates/tn_session `client`, `client_loop` and `closing`, its `workers` `reader`, tn_cores, of
   tn_net `Console`, `Keys`, `Incoming`, `Link`, `Outgoing`, `Sending`, `Throttle` and `Screen`, and tn_connect. */

#ifndef MARK
#define MARK 1		/* with more writes waiting no more keys are read: WRITES_MARK, 128 */
#endif
#ifndef Q
#ifndef QLESS
#define QLESS 0
#endif
#define Q (MARK + M + 3 - QLESS)	/* how many writes wait at most, and their end: MAX_WRITES, 256 */
#endif
#ifndef SCREEN
#define SCREEN 1	/* how many units the screen's pipe holds */
#endif
#ifndef CP
#define CP 1		/* how many units a piece has at most: PIECE_BYTES, 512 */
#endif

chan user = [1] of { byte };	/* standard input: keys, and 0 for the key that leaves */
bool user_ended;		/* its end */
chan pieces = [Q] of { byte, byte };	/* the writes that wait: so many units, and the last one; none of both is the end */
bool pieces_up = true;		/* Outgoing has not put the end */
bool sending_up = true;		/* Sending has its receiver */
chan sent = [1] of { bit };	/* tells Throttle that something was sent */
byte writes;			/* Waiting */
chan screen = [SCREEN] of { byte };
bool screen_dead;

bool c_over, c_at_end, c_closed;	/* Progress of Core */
bool c_stop;			/* the flag that Keys looks at */
bool c_net_done, c_keys_done, sending_done, client_done;
bool c_blocked_out, c_blocked_screen;	/* the core waits in a write */

/* Link::hang_up shuts down both directions */
#define HANG_UP link_down = true; fin[C2S] = true

/* Link::end_sending */
inline link_end_sending() {
	if
	:: atomic { link_left -> HANG_UP }
	:: !link_left
	fi
}

/* Throttle::holds */
#ifdef MUT_NO_THROTTLE
#define HELD false
#else
#define HELD (writes > MARK && sending_up)
#endif

#ifndef KEPT
#define KEPT 1		/* how many keys are read ahead at most: MAX_KEPT, 16 MB */
#endif
#ifdef MUT_NO_AHEAD
#define READS_AHEAD false
#else
#define READS_AHEAD nfull(kept)
#endif
chan kept = [KEPT] of { byte };	/* the keys that were read ahead */

/* Net: run_reader over Incoming */
proctype ClientNet() {
	byte n = 0, u = 0, x = 0, req = 0;
	bool ok;
	mtype last = Left;
	do
	:: /* read_piece */
		if
		:: atomic { MAY_FAIL -> FAIL; last = Refused }		/* no memory for the piece: the link stays open */
		:: atomic { MAY_FAIL && !link_left -> FAIL; link_closed = true; last = ReadFailed }	/* break_off */
		:: atomic { nempty(wire[S2C]) ->
			do
			:: nempty(wire[S2C]) && n + req < CP && u == 0 ->
				wire[S2C]?x;
				if
				:: x == RED || x == ANSWER -> u = x
				:: x == REQ -> req++
				:: else -> n++
				fi
			:: n > 0 || u != 0 || req > 0 -> break
			od; x = 0 }
		:: atomic { empty(wire[S2C]) && (fin[S2C] || link_down) -> link_closed = true; last = HangUp }
		:: atomic { IS_RESET(C2S) -> link_closed = true; last = (link_left -> HangUp : ReadFailed) }	/* a reset */
		fi;
		if
		:: n > 0 || u != 0 || req > 0 ->
			atomic { say(CLI, NET, Piece, n, u, req, ok);
				n = 0; u = 0; req = 0;
				if
				:: ok
				:: else -> goto out
				fi }
		:: else ->
			atomic { say(CLI, NET, last, 0, 0, 0, ok); last = Left;
				if
				:: ok
				:: else -> goto out
				fi };
			atomic { say(CLI, NET, Left, 0, 0, 0, ok); goto out }
		fi
	od;
out:	true;
	atomic { n = 0; u = 0; ok = 0; c_net_done = true }
}

/* Keys: run_reader over Console, or over Keys (PLAIN), which waits for its reader alone */
proctype ClientKeys() {
	byte x = 0;
	bool ok, has_size, asks_to_close;
	mtype last = Left;
	do
	::
#ifdef SIZES
		/* tell_beside: what the last read took from the pipe of sizes, or a control function; either is one mail */
		if
		:: !has_size
		:: atomic { has_size -> has_size = false; say(CLI, KEYS, Resized, 0, 0, 0, ok);
			if
			:: ok
			:: else -> goto out
			fi }
		fi;
#endif
		if
		:: atomic { MAY_FAIL -> FAIL; last = Refused; goto ends }	/* no memory for the piece */
		:: true
		fi;
#ifdef PLAIN
		/* Throttle::wait, then a read */
		do
		:: writes <= MARK -> break
		:: writes > MARK ->
			if
			:: nempty(sent) -> sent?_
			:: atomic { empty(sent) && !sending_up -> break }
			fi
		od;
		if
		:: atomic { nempty(user) -> user?x }
		:: atomic { empty(user) && user_ended -> last = HangUp }
		:: atomic { MAY_FAIL -> FAIL; last = ReadFailed }
		fi;
#else
#ifdef USER_INLINE
		if
		:: !HELD
		:: link_closed
		fi;
#endif
		/* Console::wait, or leave once the user has, then a read */
		if
		:: atomic { link_closed -> last = HangUp }
		:: atomic { link_left && !link_closed && nempty(kept) && !HELD -> kept?x }
		:: atomic { link_left && !link_closed && nempty(kept) && HELD -> last = HangUp }	/* is_late */
		:: atomic { link_left && empty(kept) -> last = HangUp }
#ifdef USER_INLINE
		USER_TYPES(x)
#else
		:: atomic { !link_left && !HELD && nempty(kept) -> kept?x }
		:: atomic { !link_left && !HELD && empty(kept) && nempty(user) -> user?x; asks_to_close = (x == 0) }
		:: atomic { !link_left && HELD && READS_AHEAD && nempty(user) -> user?x;
			if
			:: x == 0 -> asks_to_close = true
			:: else -> kept!x; x = 0; goto again
			fi }
#endif
		:: atomic { !link_left && !HELD && empty(kept) && empty(user) && user_ended -> last = HangUp }
		:: atomic { MAY_FAIL -> FAIL; last = ReadFailed }
#ifdef SIZES
		:: atomic { !HELD && sizes > 0 -> sizes--; has_size = true; goto again }		/* Interrupted: it reads again */
#endif
		fi;
		if
		:: atomic { asks_to_close -> asks_to_close = false; x = 0 }; link_left = true; goto again
		:: !asks_to_close
		fi;
#endif
ends:		true;
		if
		:: last == Left ->
			atomic { say(CLI, KEYS, Piece, 1, x, 0, ok); x = 0;
				if
				:: ok
				:: else -> goto out
				fi };
			if						/* is_stopped */
			:: atomic { c_stop -> goto leaves }
			:: !c_stop
			fi
		:: else ->
			atomic { x = 0; say(CLI, KEYS, last, 0, 0, 0, ok); last = Left;
				if
				:: ok
				:: else -> goto out
				fi };
			goto leaves
		fi;
again:		true
	od;
leaves:	true;
	atomic { say(CLI, KEYS, Left, 0, 0, 0, ok); goto out };
out:	true;
	atomic { x = 0; ok = 0; asks_to_close = 0;
		do
		:: nempty(kept) -> kept?_
		:: empty(kept) -> break
		od;
		c_keys_done = true }
}

/* Sending: a thread of its own. So many bytes do not wait any more: `note` */
inline note() {
	atomic { n = 0; u = 0; writes-- };
	if						/* try_send */
	:: atomic { len(sent) == 0 -> sent!1 }
	:: len(sent) == 1
	fi
}

#define IS_END (n == 0 && u == 0)

proctype Sending() {
	byte n = 0, u = 0;
	bool ok = true;
	do
	:: atomic { nempty(pieces) -> pieces?n,u; ok = true;
		if
		:: IS_END -> goto ends
		:: !IS_END
		fi;
		do						/* send_whole */
		:: n > 0 && ok -> put_unit(C2S, KEY, ok); n--
		:: n == 0 && u != 0 && ok -> put_unit(C2S, u, ok); u = 0
		:: (n == 0 && u == 0) || !ok -> break
		od };
		if
		:: atomic { !ok && !link_left && !link_dark -> HANG_UP; goto out }
		:: atomic { !ok && (link_left || link_dark) -> goto fails }
		:: ok
		fi;
		note()
	od;
fails:	note();
	do							/* discard: all that still comes */
	:: atomic { nempty(pieces) -> pieces?n,u;
		if
		:: IS_END -> goto ends
		:: !IS_END
		fi };
		note()
	od;
ends:	fin[C2S] = true;					/* finish */
	link_end_sending();
out:	true;
	atomic { n = 0; u = 0; ok = 0; sending_up = false; sending_done = true }
}

/* Outgoing::end: the end is put behind all writes, once, where somebody takes it */
inline put_end() {
	if
	:: pieces_up ->
#ifdef NOBLOCK
		assert(len(pieces) < Q || !sending_up);	/* nor does it wait to put the end */
#endif
		if
		:: atomic { sending_up && nfull(pieces) -> pieces!0,0; pieces_up = false }
		:: atomic { !sending_up -> pieces_up = false }
		fi
	:: !pieces_up
	fi
}

/* Core: client.rt start_readers and run_beside, client_loop.rt run_core, machine.rt handle, then connecting.rt talk_and_send */
proctype Core() {
	byte from = 0, n = 0, u = 0, req = 0, lefts = 0, out = 0, outu = 0, text = 0, textu = 0;
	mtype m;
	bool ok, shown, closed, left;
	/* each thread may fail to start */
	if
	:: atomic { run ClientNet(); run ClientKeys() }
	:: atomic { MAY_FAIL -> FAIL; c_net_done = true; c_keys_done = true; c_over = true; goto finishes }
	:: atomic { MAY_FAIL -> FAIL; run ClientNet(); box_up[CLI] = false; c_keys_done = true; c_over = true; goto finishes }
	fi;
	do
	:: lefts >= 2 -> break
	:: lefts < 2 ->
		atomic {
			box[CLI]?from,m,n,u,req;
			left = (m == Left); out = 0; outu = 0; text = 0; textu = 0;
			/* Core::handle */
			if
			:: c_over
			:: !c_over && m == Piece && from == KEYS ->
				if
				:: MAY_FAIL -> FAIL; c_over = true; out = 1	/* a call is refused: some of it went before */
				:: MAY_FAIL -> FAIL; c_over = true
				:: u == RED -> outu = RED		/* a key that is echoed there goes at once */
				:: u != RED -> out = 1
#ifndef ECHOED_THERE
				:: u != RED -> text = 1			/* it joins a line that is edited here, and is shown */
#endif
				fi;
				if
				:: c_closed -> out = 0; outu = 0
				:: else
				fi
			:: !c_over && m == Piece && from == NET ->
				if
				:: MAY_FAIL -> FAIL; c_over = true
				:: true -> text = n; textu = u;
					out = (c_closed -> 0 : req)
				fi
			:: !c_over && m == Resized -> out = (c_closed -> 0 : 1)
			:: !c_over && m == Resized				/* it is not to be told */
			:: !c_over && m == Resized && MAY_FAIL -> FAIL; c_over = true
			:: !c_over && from == NET && m == HangUp -> c_at_end = true
			:: !c_over && from == NET && m == ReadFailed -> c_at_end = true
			:: !c_over && from == KEYS && m == Left -> c_closed = true
			:: !c_over && m == Refused -> c_over = true
			:: else
			fi;
			/* Publisher::over: Keys waits for the user no longer */
			if
#ifndef MUT_WAITS_FOR_USER
			:: c_over -> link_closed = true
#endif
			:: else
			fi;
			from = 0; n = 0; u = 0; req = 0; m = 0; ok = true; shown = true;
			if
			:: out == 0 && outu == 0 -> goto shows
			:: else
			fi
		};
		/* what goes to the network: one write */
		if
		:: atomic { (out > 0 || outu != 0) && !pieces_up -> ok = false }
		:: atomic { (out > 0 || outu != 0) && pieces_up && MAY_FAIL -> FAIL; ok = false }	/* no memory */
		:: atomic { (out > 0 || outu != 0) && pieces_up -> writes++;
#ifdef NOBLOCK
			assert(len(pieces) < Q || !sending_up);	/* the core never waits for the server to read */
#endif
			c_blocked_out = true };
			if
			:: atomic { sending_up && nfull(pieces) -> pieces!out,outu; c_blocked_out = false }
			:: atomic { !sending_up -> ok = false; c_blocked_out = false }
			fi
		fi;
shows:		/* what is shown */
		do
#ifdef SCREEN_FREE
		:: atomic { text > 0 || textu != 0 -> SHOWN(textu); text = 0; textu = 0 }	/* the screen never waits */
#else
		:: (text > 0 || textu != 0) && shown -> c_blocked_screen = true;
			if
			:: atomic { nfull(screen) && !screen_dead ->
				if
				:: text > 0 -> screen!TEXT; text--
				:: else -> screen!textu; textu = 0
				fi;
				c_blocked_screen = false }
#ifdef MUT_NO_DARKEN
			:: atomic { screen_dead -> shown = false; c_blocked_screen = false }
#else
			:: atomic { screen_dead -> link_dark = true; HANG_UP; c_blocked_screen = false;	/* darken */
#ifdef HEAD
				text = 0; textu = 0 }				/* its reader has left: the rest is dropped */
#else
				shown = false }
#endif
#endif
			fi
#endif
		:: atomic { (text == 0 && textu == 0) || !shown ->
			if
			:: !(ok && shown) -> c_over = true
			:: else
			fi;
			out = 0; outu = 0; text = 0; textu = 0; ok = 0; shown = 0;
			lefts = lefts + left; left = 0;
			if
			:: ((c_over || c_at_end) && !c_stop) || ((c_over || c_closed) && !closed) -> break
			:: else -> goto next
			fi }
		od;
		/* close */
		if
		:: atomic { (c_over || c_at_end) && !c_stop -> c_stop = true }
		:: !(c_over || c_at_end) || c_stop
		fi;
		if
		:: (c_over || c_closed) && !closed -> put_end(); closed = true
		:: !(c_over || c_closed) || closed
		fi;
next:		true
	od;
finishes:	put_end();					/* finish_unless, or end */
	c_net_done && c_keys_done;
	sending_done;
	/* the connection is closed */
	atomic { fin[C2S] = true; deaf[S2C] = true; client_done = true }
}
