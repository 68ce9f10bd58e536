/* (e) How a thread sleeps at a bounded channel and is woken: of the toolchain's crossbeam_channel `Bell` (bells.rt), `send_as`
   and `recv_as` (flavors/array/ruled.rt), under sequential consistency, since all its atomics are SeqCst. SENDERS threads send
   EACH messages, the receiver takes TAKES of them and goes; then the senders are told. No wake is lost. */
#ifndef CAP
#define CAP 1
#endif
#ifndef SENDERS
#define SENDERS 3
#endif
#ifndef EACH
#define EACH 2
#endif
#ifndef TAKES
#define TAKES (SENDERS * EACH)	/* how many the receiver takes before it goes */
#endif

#ifdef MUT_NO_LOOK
#define HAS_TO || true		/* it does not look once more */
#else
#define HAS_TO
#endif

chan slots = [CAP] of { byte };
byte ends_s = SENDERS, ends_r = 1;
byte rings_s, rings_r;		/* the bell of the senders, on which the receiver sleeps; and the other */
byte sleepers_s, sleepers_r;
bool parked[SENDERS + 1], woken[SENDERS + 1];
byte gone, got;

/* futex: parks where the word is as it was heard */
inline park(me, word, heard) {
	if
	:: atomic { word == heard -> parked[me] = true; woken[me] = false }; atomic { woken[me] -> parked[me] = false }
	:: word != heard
	:: atomic { true -> skip }	/* a spurious wake: it looks again */
	fi
}

proctype Send(byte me) {
	byte left = EACH, heard; bool has_to;
	do
	:: left == 0 -> break
	:: left > 0 ->
		do
		:: /* try_send_as */
			if
			:: ends_r == 0 -> goto out
			:: ends_r != 0
			fi;
			if
			:: atomic { nfull(slots) -> slots!1; left-- };
				/* ring */
				if
				:: sleepers_s != 0 -> rings_s++;
					atomic { if :: parked[SENDERS] -> woken[SENDERS] = true :: else fi }
				:: sleepers_s == 0
				fi;
				break
			:: full(slots)
			fi;
			/* listen, look once more, sleep */
			sleepers_r++;
			heard = rings_r;
			has_to = (len(slots) == CAP) HAS_TO;
			if
			:: has_to && ends_r != 0 -> park(me, rings_r, heard)
			:: !has_to || ends_r == 0
			fi;
			sleepers_r--
		od
	od;
out:	atomic { ends_s--; if :: ends_s == 0 -> rings_s++; woken[SENDERS] = true :: else fi };
	gone++
}

proctype Recv() {
	byte heard; bool has_to, has_sender; byte i;
	do
	:: got == TAKES -> break
	:: got < TAKES ->
		do
		:: has_sender = (ends_s != 0);
			if
			:: atomic { nempty(slots) -> slots?_; got++ };
				/* ring: one of those who sleep is woken, whichever */
				if
				:: sleepers_r != 0 -> rings_r++;
					atomic {
						if
						:: SENDERS > 0 && parked[0] && !woken[0] -> woken[0] = true
						:: SENDERS > 1 && parked[1] && !woken[1] -> woken[1] = true
						:: SENDERS > 2 && parked[2] && !woken[2] -> woken[2] = true
						:: else
						fi }
				:: sleepers_r == 0
				fi;
				break
			:: empty(slots) && !has_sender -> goto out
			:: empty(slots) && has_sender
			fi;
			sleepers_s++;
			heard = rings_s;
			has_to = (len(slots) == 0) HAS_TO;
			if
			:: has_to && ends_s != 0 -> park(SENDERS, rings_s, heard)
			:: !has_to || ends_s == 0
			fi;
			sleepers_s--
		od
	od;
out:	/* the receiver goes: each that sleeps is woken */
	ends_r--;
	rings_r++;
	atomic { i = 0;
		do
		:: i < SENDERS -> if :: parked[i] -> woken[i] = true :: else fi; i++
		:: i == SENDERS -> break
		od; i = 0 };
	gone++
}

proctype Watch() {
	timeout -> assert(gone == SENDERS + 1)
}

init {
	atomic { run Watch(); run Recv(); byte i = 0;
		do
		:: i < SENDERS -> run Send(i); i++
		:: i == SENDERS -> break
		od }
}
