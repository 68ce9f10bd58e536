/* (b) A client's session: a user who types, ends or leaves, a screen that may wait or die, a server that may do anything. */
#ifndef K
#define K 3		/* how many keys the user types; ENDLESS: without end */
#endif
#ifndef REQS
#define REQS 0		/* how many requests the server sends that have to be replied to */
#endif
#ifndef WORDS
#define WORDS 2		/* how many other units it sends */
#endif
#ifdef SIZES
byte sizes = SIZES;
#endif

bool user_silent;	/* types nothing more and does not end the input */
bool user_left;		/* typed the key that leaves */
bool screen_stuck;	/* reads nothing more and does not die */
bool server_mute;	/* sends nothing more, and closes once the client has ended what it sends */
bool server_stays;	/* sends nothing more and never closes */
bool server_blind;	/* reads nothing more and stays */
bool server_closed;
bool red_typed, red_gone;

#define CLIENT
#include "parts.pml"
#include "client.pml"

proctype User() {
	byte k = K;
	do
	:: atomic { k > 0 && len(user) == 0 -> user!KEY;
#ifndef ENDLESS
		k--
#endif
		}
#ifdef WATCHED
	:: atomic { !red_typed && len(user) == 0 -> user!RED; red_typed = true }
#endif
	:: c_keys_done -> break
#ifndef ENDLESS
	:: atomic { user_ended = true; break }
#ifndef ENDS
	:: atomic { user_silent = true; break }
#endif
#ifdef LEAVES
	:: atomic { len(user) == 0 -> user!0; user_left = true; break }
#endif
#endif
	od
}

proctype Shows() {
	do
	:: atomic { nempty(screen) -> screen?_ }
	:: client_done -> break
#ifdef STUCK
	:: atomic { screen_stuck = true; break }
#endif
#ifdef DIES
	:: atomic { screen_dead = true; break }
#endif
	od
}

inline server_closes() {
	atomic { fin[S2C] = true; deaf[C2S] = true; server_closed = true }
}

proctype ServerReads() {
	byte x;
	do
	:: atomic { !server_closed && nempty(wire[C2S]) -> wire[C2S]?x;
		if
		:: x == RED -> red_gone = true
		:: else
		fi; x = 0 }
	:: server_closed -> break
	:: client_done && empty(wire[C2S]) -> break
#ifdef BLIND
	:: atomic { server_blind = true; break }
#endif
	od
}

proctype ServerWrites() {
	byte w = WORDS, r = REQS;
	do
	:: atomic { w > 0 && nfull(wire[S2C]) && !deaf[S2C] -> wire[S2C]!TEXT; w-- }
	:: atomic { r > 0 && nfull(wire[S2C]) && !deaf[S2C] -> wire[S2C]!REQ; r-- }
	:: deaf[S2C] -> break
	:: break
	od;
	if
	:: server_closes()
	:: fin[S2C] = true;				/* it ends, and closes once the client has */
		if
		:: atomic { fin[C2S] && empty(wire[C2S]) -> server_closes() }
		:: deaf[S2C] -> server_closes()
		fi
	:: atomic { server_mute = true };		/* it closes once the client has ended */
		if
		:: atomic { fin[C2S] && empty(wire[C2S]) -> server_closes() }
		:: deaf[S2C] -> server_closes()
		fi
#ifndef CLOSES
	:: fin[S2C] = true				/* it ends and never closes */
	:: atomic { server_stays = true }		/* it stays for ever */
#endif
	fi
}

/* The server stays, and is waited for: to close, or to read what is to be sent; or it waits for a user who types
   nothing more and does not end; or the screen is waited for. */
#ifdef DIES
#define DARK c_over		/* a screen that takes no more, once the core has found out */
#else
#define DARK false
#endif
#ifdef PLAIN
#define USER_HOLDS user_silent		/* any other reader than standard input holds Keys */
#else
#define USER_HOLDS (user_silent && server_mute && !DARK)
#endif
#ifndef EXCUSED
#define EXCUSED (	(server_stays && !user_left && !DARK) \
		|| (server_blind && !server_closed && !user_left && !DARK && writes > 0) \
		|| (server_blind && !server_closed && server_mute && !user_left && !DARK) \
		|| USER_HOLDS \
		|| (screen_stuck && c_blocked_screen) )
#endif

proctype Watch() {
	timeout -> assert(client_done || EXCUSED)
}

init {
	atomic { run Core(); run Sending(); run User(); run Shows(); run ServerReads();
		run ServerWrites();
#ifndef NOWATCH
		run Watch()
#endif
	}
}

#ifdef LTL_RED
ltl red { [] (red_typed -> <> (red_gone || fin[S2C])) }
#endif
#ifdef LTL_CLOSED
ltl closed { [] (server_closed -> <> client_done) }
#endif
#ifdef LTL_LEFT
ltl left { [] (user_left -> <> (client_done || screen_stuck)) }
#endif
#ifdef LTL_OVER
ltl over { [] (c_over -> <> client_done) }
#endif
