/* A server's session: of crates/tn_session `session`, `term`, `credit` and `closing`, of its `workers` `reader`, `desk`, `back` and
   `credit`, tn_cores, of tn_net `Attended` with its `Standing`, and of tn_serve `linger`. */

#ifndef L
#define L 1		/* how many entries may wait for one more piece to be welcome: MAX_BEFORE_PIECE, 511 */
#endif
#ifndef P
#define P 1		/* how many units a piece has at most: PIECE_BYTES, 512 */
#endif
#ifndef E
#define E 2		/* how many entries their channel holds: ENTRIES */
#endif
#ifndef JOBS
#define JOBS 1		/* jobs in the background */
#endif
#ifndef AHEAD
#define AHEAD 1		/* how many steps of background jobs may be said that Term has not taken: STEPS_AHEAD, 32 */
#endif
#define ROOM (L + P + 1)	/* how many entries may wait at all: 1,024 */

#define NOTHING 9	/* nothing is put */
#define END 0
#define STAY 0
#define DONE 1
#define STOP 2

chan credit = [1] of { bit };
byte step_credits = AHEAD;	/* credits for steps that Back has, or that wait for it */
bool give_up_ = false;		/* the end that gives credits is gone */
chan ent = [E] of { byte };	/* 0 is the end of the entries */
bool ent_up = true;		/* the end that puts entries is there */
chan waitq = [ROOM] of { byte };	/* the entries that wait in the server end */

/* Standing */
bool finished, hung_up, held, went, idled;
bool linger_over, hold_over;	/* the 5 seconds after `finished`, the 2 seconds of `hold` */
bool at_hold;			/* Net waits in `hold` */
byte unheard;			/* pieces that Net has said and Term has not handled */
#ifndef PASSES_END
#define PASSES_END skip	/* what a job is joined to gets the end of what was typed */
#endif
bool stop;			/* the flag that Back looks at */
bool t_over, t_at_end, t_asks;	/* Progress of Term */
bool t_writes;			/* Term is in a write */
bool net_done, desk_done, back_done, server_done;
bool start_failed;

bool job_read_red;		/* the foreground job took the watched key's entry */
bool back_quiet = false;	/* from here on a step in the background has no text, or ends its job */

#define IS_OVER_HOOK	(finished || went)

#ifdef LEAN
/* few choices: each white key is an entry, the job answers each by one unit, or is done (DONES); a job in the background
   writes one unit at each step, or is done */
#ifndef ENTRIES_OF
#define ENTRIES_OF(n, made) made = n
#endif
#ifndef DONES
#define DONES false
#endif
#ifndef ANSWERS
#define ANSWERS(e, text, last, after, refused) \
	if \
	:: e == RED -> last = ANSWER \
	:: e != RED -> text = 1 \
	:: e != RED && DONES -> text = 1; after = DONE \
	:: atomic { MAY_FAIL -> FAIL; refused = true } \
	fi
#endif
#ifndef MAKES_STEP
#define MAKES_STEP(text, last, after, refused) \
	if \
	:: text = 1 \
	:: BACK_ENDS -> after = DONE \
	:: atomic { MAY_FAIL -> FAIL; refused = true } \
	fi
#endif
#ifndef BACK_ENDS
#define BACK_ENDS false
#endif
#endif

#ifndef MAKES_STEP
/* a step of a job in the background: any text of one unit or none, any end; or no memory */
#define MAKES_STEP(text, last, after, refused) \
	if \
	:: text = 0; after = STAY \
	:: text = 1; after = STAY \
	:: text = 0; after = DONE \
	:: text = 1; after = STOP \
	:: atomic { MAY_FAIL -> FAIL; refused = true } \
	fi
#endif
#ifndef ANSWERS
/* the answer to an entry: to the watched one its answer; to any other one text, none, or the end */
#define ANSWERS(e, text, last, after, refused) \
	if \
	:: e == RED -> text = 0; last = ANSWER; after = STAY \
	:: e != RED -> text = 1; after = STAY \
	:: e != RED -> text = 0; after = STAY \
	:: e != RED -> text = 1; after = DONE \
	:: atomic { MAY_FAIL -> FAIL; refused = true } \
	fi
#endif
#ifndef ENTRIES_OF
/* how many entries these white keys complete; a piece may complete one for a CR before it */
#define ENTRIES_OF(n, made) \
	if \
	:: made = 0 \
	:: made = n \
	:: made = n + 1 \
	fi
#endif

/* Net: run_reader over Attended. Each step is one access to what threads share. */
proctype Net() {
	byte n = 0, u = 0, x = 0;
	bool ok, passed;
	mtype last = Left;
reads:	/* read_piece, and in it read_on */
#ifdef HOOKED
	if					/* it looks, and then it reads: a piece may come after the look */
	:: atomic { hung_up && !finished -> went = true; last = HangUp; goto ends }
	:: !hung_up || finished
	fi;
#endif
	if
	:: atomic { MAY_FAIL -> FAIL; last = Refused; goto ends }			/* no memory for the piece */
	:: atomic { MAY_FAIL -> FAIL; went = true; last = ReadFailed; goto ends }
	:: atomic { hung_up && !finished -> went = true; last = HangUp; goto ends }	/* its time has passed */
	:: atomic { !finished && nempty(wire[C2S]) ->
		do
		:: nempty(wire[C2S]) && n < P && u == 0 ->
			wire[C2S]?x;
			if
			:: x == RED -> u = RED
			:: else -> n++
			fi
		:: n > 0 || u != 0 -> break
		od; x = 0 }
	:: atomic { finished && nempty(wire[C2S]) -> wire[C2S]?x; x = 0; goto discards }
	:: atomic { finished && linger_over -> went = true; last = HangUp; deaf[C2S] = true; goto ends }
	:: atomic { empty(wire[C2S]) && fin[C2S] -> at_hold = true };
		do						/* hold */
		:: atomic { !held || hung_up || finished -> at_hold = false; went = true; last = HangUp; goto ends }
		:: atomic { hold_over -> at_hold = false; went = true; last = HangUp; goto ends }
		:: atomic { held && unheard == 0 && t_asks && empty(waitq) && !passed -> PASSES_END; passed = true }	/* pass_end */
		od
	:: atomic { IS_RESET(S2C) -> went = true; last = ReadFailed; goto ends }	/* a reset */
#ifdef IDLE
	:: atomic { empty(wire[C2S]) && peer_silent && !finished -> idled = true; went = true; last = HangUp; goto ends }
#endif
	fi;
	if							/* take_credit */
	:: atomic { nempty(credit) -> credit?_ }
	:: atomic { empty(credit) && give_up_ -> goto out }
	fi;
	atomic { say(SRV, NET, Piece, n, u, 0, ok);
		n = 0; u = 0; unheard++;
		if
		:: ok -> ok = 0; goto reads
		:: else -> goto out
		fi };
discards:						/* once the session is over, all that comes */
	do
	:: atomic { linger_over -> went = true; last = HangUp; deaf[C2S] = true; break }
	:: atomic { !linger_over && nempty(wire[C2S]) -> wire[C2S]?x; x = 0 }
	:: atomic { empty(wire[C2S]) && fin[C2S] -> went = true; last = HangUp; break }
	:: atomic { IS_RESET(S2C) -> went = true; last = ReadFailed; break }
	:: atomic { MAY_FAIL -> FAIL; went = true; last = ReadFailed; break }
	od;
ends:	true;
#ifdef IDLE
	if							/* say_any: the last words, as a text of the foreground job */
	:: atomic { idled && last == HangUp -> say(SRV, NET, Said, 1, 0, STAY, ok);
		if
		:: ok -> ok = 0
		:: else -> goto out
		fi }
	:: !idled || last != HangUp
	fi;
#endif
	atomic { say(SRV, NET, last, 0, 0, 0, ok); last = Left;
		if
		:: ok
		:: else -> goto out
		fi };
	atomic { say(SRV, NET, Left, 0, 0, 0, ok); goto out };
out:	true;
	atomic { n = 0; u = 0; ok = 0; passed = 0; last = Left; net_done = true }
}

/* Desk: run_desk */
proctype Desk() {
	byte e = 0, text = 0, last = 0, after = 0;
	bool ok, refused;
	do
	::	atomic { say(SRV, DESK, Take, 0, 0, 0, ok);
			if
			:: ok
			:: else -> goto out
			fi };
		if
		:: atomic { nempty(ent) -> ent?e;
			if
			:: e == END -> goto leaves
			:: e == RED -> job_read_red = true
			:: else
			fi;
			text = 0; last = 0; after = STAY; refused = false;
			ANSWERS(e, text, last, after, refused);
			e = 0 }
		:: atomic { empty(ent) && !ent_up -> goto out }
		fi;
		if
		:: atomic { refused -> say(SRV, DESK, Refused, 0, 0, 0, ok);
				if
				:: ok
				:: else -> goto out
				fi };
			goto leaves
		:: atomic { !refused -> say(SRV, DESK, Said, text, last, after, ok); text = 0; last = 0;
				if
				:: !ok -> goto out
				:: ok && after == DONE -> after = 0; goto leaves
				:: ok && after != DONE -> after = 0
				fi }
		fi
	od;
leaves:	true;
	atomic { e = 0; say(SRV, DESK, Left, 0, 0, 0, ok); goto out };
out:	true;
	atomic { e = 0; text = 0; last = 0; after = 0; ok = 0; refused = 0; desk_done = true }
}

/* Back: run_back over a queue of jobs */
proctype Back() {
	byte left = JOBS, text = 0, last = 0, after = 0;
	bool ok, refused;
	do
	::	if						/* StepCredits::take */
		:: atomic { step_credits > 0 -> step_credits-- }
		:: atomic { step_credits == 0 && give_up_ -> goto out }
		fi;
		if
		:: stop -> goto leaves
		:: atomic { !stop && left == 0 -> goto leaves }
		:: atomic { !stop && left > 0 -> text = 0; after = STAY; refused = false;
				MAKES_STEP(text, last, after, refused) }
		fi;
		if
		:: refused -> goto gives_up
		:: atomic { !refused -> say(SRV, BACK, Said, text, last, after, ok); text = 0; last = 0;
				if
				:: !ok -> goto out
				:: ok && after != STAY -> left--
				:: ok && after == STAY
				fi;
				after = 0 }
		fi
	od;
gives_up:
	true;
	atomic { say(SRV, BACK, Refused, 0, 0, 0, ok);
		if
		:: ok
		:: else -> goto out
		fi };
leaves:	true;
	atomic { say(SRV, BACK, Left, 0, 0, 0, ok); goto out };
out:	true;
	atomic { left = 0; text = 0; last = 0; after = 0; ok = 0; refused = 0; back_done = true }
}

/* a message's bytes are written: so many units of text, then the last one if there is one */
inline write_out(n, u, ok) {
	ok = true; t_writes = true;
	do
	:: n > 0 && ok -> put_unit(S2C, TEXT, ok); n--
	:: n == 0 && u != 0 && ok -> put_unit(S2C, u, ok); u = 0
	:: (n == 0 && u == 0) || !ok -> n = 0; u = 0; t_writes = false; break
	od
}

/* Finish of Connection, with its Standing */
#ifdef MUT_NO_FINISH
#define FINISH finished = finished
#else
#define FINISH finished = true; fin[S2C] = true; PASSES_END
#endif

#define IS_WELCOMING (len(waitq) <= L || t_over)

/* close, and then give_credit; a piece that was handled makes one owed */
#ifdef MUT_NO_STOP_AT_END
#define STOPS t_over
#else
#define STOPS (t_over || t_at_end)
#endif
#ifdef MUT_CREDIT_ALWAYS
#define GIVES owed
#else
#ifdef MUT_NO_CREDIT_WHEN_OVER
#define GIVES (owed && len(waitq) <= L && !t_over)
#else
#define GIVES (owed && IS_WELCOMING)
#endif
#endif
#ifdef MUT_NO_STEP_CREDIT
#define GIVES_STEP false
#else
#ifdef MUT_STEP_CREDIT_ALWAYS
#define GIVES_STEP (m == Said)
#else
#define GIVES_STEP (from == BACK && m == Said)
#endif
#endif
inline close_and_give() {
	if
	:: atomic { STOPS && !stop -> stop = true }
	:: !STOPS || stop
	fi;
	if
	:: atomic { t_over && !closed -> FINISH; closed = true }
	:: !t_over || closed
	fi;
	if
	:: atomic { GIVES -> assert(len(credit) < 1); credit!1; owed = false }	/* never waits */
	:: !(GIVES)
	fi
}

/* put_if: never waits either, and finds who takes, which `assert` says */
inline put_if(e) {
	if
	:: e != NOTHING -> assert(ent_up && !desk_done && len(ent) < E); ent!e; e = NOTHING
	:: else
	fi
}


/* Term::fails: a request that waits is answered by the end */
#ifdef MUT_NO_END_ON_REFUSAL
#define REFUSES whole = false; t_asks = false; t_over = true
#else
#define REFUSES whole = false; last = (t_asks -> END : NOTHING); t_asks = false; t_over = true
#endif

/* Term: session.rt run, term.rt run_term, terminal.rt handle */
proctype Term() {
	byte from = 0, n = 0, u = 0, a = 0, made = 0, lefts = 0, put = NOTHING, last = NOTHING, x = 0;
	mtype m;
	bool closed, owed = true, ok, whole, piece, left;
	bool net_on, desk_on, back_on;

	/* open: the opening words */
#ifdef OPENS_WITH_REQUEST
	u = REQ;			/* the client has to reply */
#else
	n = 1;
#endif
	atomic { write_out(n, u, ok);
		if
		:: ok
		:: else -> t_over = true
		fi };
	/* run: each thread may fail to start */
	if
	:: atomic { run Net(); net_on = true }
	:: atomic { MAY_FAIL -> FAIL; start_failed = true; FINISH }; goto joined
	fi;
	if
	:: atomic { run Desk(); desk_on = true }
	:: atomic { MAY_FAIL -> FAIL; start_failed = true; FINISH; box_up[SRV] = false; ent_up = false; give_up_ = true };
		goto joined
	fi;
	if
	:: atomic { run Back(); back_on = true }
	:: atomic { MAY_FAIL -> FAIL; start_failed = true; FINISH; box_up[SRV] = false; ent_up = false; give_up_ = true };
		goto joined
	fi;

	close_and_give();
	do
	:: lefts >= 3 -> break
	:: lefts < 3 ->
		atomic {
			box[SRV]?from,m,n,u,a;
			/* CreditGiver::give_for: a credit for one more step; never waits */
			if
			:: GIVES_STEP -> assert(step_credits < AHEAD); step_credits++
			:: else
			fi;
			piece = (m == Piece); left = (m == Left); unheard = unheard - piece;
			/* Term::welcomes: a piece comes only where it is welcome */
			assert(!piece || IS_WELCOMING);
			put = NOTHING; last = NOTHING; whole = true;
			/* Term::handle */
			if
			:: t_over ->
				n = 0; u = 0;
				if
				:: m == Take -> put = END
				:: else
				fi
			:: !t_over && m == Piece ->
				if
				:: MAY_FAIL -> FAIL; n = 0; u = 0; REFUSES	/* the end refuses a call before anything comes of it */
				:: true ->
					ENTRIES_OF(n, made);
					do
					:: made > 0 -> assert(len(waitq) < ROOM); waitq!KEY; made--
					:: made == 0 -> break
					od;
					if
					:: u == RED -> assert(len(waitq) < ROOM); waitq!RED
					:: else
					fi;
					if
					:: t_asks && len(waitq) > 0 -> waitq?put; t_asks = false
					:: else
					fi
				fi
			:: !t_over && m == Take ->
				if
				:: len(waitq) > 0 -> waitq?put; t_asks = false
				:: len(waitq) == 0 && t_at_end -> put = END; t_asks = false
				:: len(waitq) == 0 && !t_at_end -> t_asks = true
				:: MAY_FAIL -> FAIL; t_asks = true; REFUSES
				fi
			:: !t_over && m == Said ->
				if
				:: from == DESK && a == DONE ->
					put = (t_asks -> END : NOTHING); t_asks = false; t_over = true
				:: else
				fi
			:: !t_over && (m == HangUp || m == ReadFailed) ->
				put = (t_asks -> END : NOTHING); t_asks = false; t_at_end = true
			:: !t_over && m == Refused ->
				put = (t_asks -> END : NOTHING); t_asks = false; t_over = true
			:: !t_over && m == Left
			fi;
			if							/* a call is refused once that is done: no memory to pull */
			:: !t_over && MAY_FAIL -> FAIL; REFUSES
			:: true
			fi;
			from = 0; a = 0;
			/* turn: what goes to the foreground job, then the writes, then what a failed one leads to */
			put_if(put);
			write_out(n, u, ok);
			if
			:: !ok && whole -> last = (t_asks -> END : NOTHING); t_asks = false; t_over = true
			:: else
			fi;
			do
			:: t_over && len(waitq) > 0 -> waitq?_	/* no more of use; keeps states few */
			:: else -> break
			od;
			owed = owed || piece;
			lefts = lefts + left; left = 0; piece = 0; ok = 0; whole = 0; m = 0;
			put_if(last);
			if
			:: (STOPS && !stop) || (t_over && !closed) -> goto closes
			:: else ->
				if
				:: GIVES -> assert(len(credit) < 1); credit!1; owed = false
				:: else
				fi;
				goto next
			fi
		};
closes:		true;
		close_and_give();
next:		true
	od;
	if
	:: !closed -> FINISH
	:: else
	fi;
joined:
	if
	:: net_on -> net_done
	:: !net_on
	fi;
	if
	:: desk_on -> desk_done
	:: !desk_on
	fi;
	if
	:: back_on -> back_done
	:: !back_on
	fi;
	/* linger: after a hang-up from outside the rest is read until the peer closes, or had its time to */
	if
	:: hung_up && !start_failed ->
		do
		:: atomic { nempty(wire[C2S]) && !linger_over -> wire[C2S]?_ }
		:: empty(wire[C2S]) && fin[C2S] -> break
		:: linger_over -> break
		:: IS_RESET(S2C) -> break
		od
	:: else
	fi;
	/* the connection is closed */
	atomic { fin[S2C] = true; deaf[C2S] = true; server_done = true }
}

/* the clock: each time runs out once it runs */
proctype Clock() {
end:	do
	:: atomic { finished && !linger_over -> linger_over = true }
	:: atomic { at_hold && !hold_over -> hold_over = true }
	:: server_done -> break
	od
}
