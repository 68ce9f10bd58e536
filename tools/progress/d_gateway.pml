/* (d) The gateway: a server's session whose two jobs are joined to a line service by bounded streams (of crates/tn_serve
   `sending`, `showing` and `dialing`). The service echoes, does nothing, floods, closes, or only ends what it says: any of
   these that no NO_.. excludes. */
#define HOOKED
#define PASSES_END fin[G2L] = true
#include "parts.pml"
bool peer_silent;	/* the peer sends nothing more, and stays */
bool service_mute;	/* the service does nothing more, and stays */
bool service_closed;
bool way_open = true, way_ended;

/* SendingLines::answer: the line goes to the service; ServiceWriter::write gives up once the session is over, in time. With EOFS an entry
   may be the end of file, with INTERRUPTS an interrupt. */
#define ANSWERS(e, text, last, after, refused) \
	if \
	:: !way_open && way_ended -> text = 1		/* "closed" */ \
	:: !way_open && !way_ended \
	:: way_open -> \
		if \
		:: atomic { !deaf[G2L] && nfull(wire[G2L]) -> wire[G2L]!e } \
		:: atomic { deaf[G2L] -> struck[G2L] = true; way_open = false } \
		:: atomic { GIVEN_UP && full(wire[G2L]) -> way_open = false } \
		:: atomic { IS_LATE && full(wire[G2L]) -> way_open = false; hung_up = true } \
		fi \
	:: EOFS && e != RED -> way_ended = (way_open || way_ended); fin[G2L] = true; way_open = false \
	:: INTERRUPTS && e != RED -> after = DONE; fin[G2L] = true; way_open = false \
	:: atomic { MAY_FAIL -> FAIL; refused = true } \
	fi
#ifdef MUT_TOLD_WAITS
#define GIVEN_UP false
#else
#ifdef MUT_TOLD_UNSEEN
#define GIVEN_UP (IS_OVER_HOOK || hung_up)
#else
#ifdef MUT_TOLD_STAYS
#define GIVEN_UP IS_OVER_HOOK
#else
#define GIVEN_UP (IS_OVER_HOOK || hung_up || fin[C2S] || deaf[S2C])	/* has_client_ended asks the client's socket too */
#endif
#endif
#endif
/* the service takes nothing for the time of --idle */
#if defined(IDLE) && !defined(MUT_TOLD_WAITS)
#define IS_LATE true
#else
#define IS_LATE false
#endif
#ifndef EOFS
#define EOFS false
#endif
#ifndef INTERRUPTS
#define INTERRUPTS false
#endif

/* Showing::step over Heard: its end hangs up, and where the session is over, it ends */
#define MAKES_STEP(text, last, after, refused) \
	if \
	:: atomic { nempty(wire[L2G]) -> wire[L2G]?last; \
		if \
		:: last == ANSWER \
		:: else -> last = 0; text = 1 \
		fi } \
	:: atomic { empty(wire[L2G]) && fin[L2G] -> hung_up = true; after = DONE } \
	:: atomic { IS_RESET(G2L) -> hung_up = true; after = DONE } \
	:: atomic { empty(wire[L2G]) && IS_OVER_HOOK -> hung_up = true; after = DONE } \
	:: atomic { MAY_FAIL -> FAIL; refused = true } \
	fi

#include "server.pml"
#include "peer.pml"

#define DROPPED (desk_done && back_done)	/* both halves of the connection to the service are dropped */

inline service_closes() {
	atomic { fin[L2G] = true; deaf[G2L] = true; service_closed = true }
}

proctype Service() {
	byte x = 0;
	if
#ifndef NO_ECHOES
	:: goto echoes
#endif
#ifndef NO_MUTE
	:: goto mute
#endif
#ifndef NO_FLOODS
	:: goto floods
#endif
#ifndef NO_CLOSES
	:: goto closes
#endif
#ifndef NO_HALF
	:: fin[L2G] = true; goto mute
#endif
	fi;
echoes:	/* one line after another, each answered before the next is read */
	do
	:: atomic { nempty(wire[G2L]) -> wire[G2L]?x; x = (x == RED -> ANSWER : TEXT) };
		if
		:: atomic { nfull(wire[L2G]) && !DROPPED -> wire[L2G]!x; x = 0 }
		:: DROPPED -> goto closes
		fi
	:: empty(wire[G2L]) && (fin[G2L] || DROPPED) -> goto closes
#ifdef STOPS_READING
	:: goto mute
#endif
	od;
floods:	/* it reads nothing until it has said all, which it never has */
	do
	:: atomic { nfull(wire[L2G]) && !DROPPED -> wire[L2G]!TEXT }
	:: DROPPED -> goto closes
#ifndef ENDLESS_FLOOD
	:: goto echoes
#endif
	od;
mute:	service_mute = true;
	DROPPED;
closes:	service_closes()
}

#ifndef EXCUSED
#define EXCUSED (	(!peer_closed && ((peer_silent && !t_over) || (peer_blind && t_writes))) \
		|| (service_mute && !peer_closed && !fin[C2S] && !t_over && !hung_up) )
#endif

proctype Watch() {
	timeout -> assert(server_done || EXCUSED)
}

init {
	atomic { held = true; run Service(); run Term(); run PeerReads(); run PeerWrites(); run Clock();
#ifndef NOWATCH
		run Watch()
#endif
	}
}

#ifdef LTL_RED
ltl red { [] (red_sent -> <> (job_read_red && red_echoed && red_answered)) }
#endif
#ifdef LTL_CLOSED
ltl closed { [] (peer_closed -> <> server_done) }
#endif
#ifdef LTL_HUNG_UP
ltl hung { [] (hung_up -> <> (server_done || peer_blind)) }
#endif
