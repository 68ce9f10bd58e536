/* (c) A client and a server, both of this project, over two bounded streams; the server's job answers each line. */
#ifndef K
#define K 3		/* how many keys the user types; ENDLESS: without end */
#endif
#ifdef SIZES
byte sizes = SIZES;
#endif
#define OPENS_WITH_REQUEST

bool user_silent, user_left, user_said;
bool screen_stuck;
bool red_typed, red_shown, answer_shown;
bool peer_silent = false;

#ifdef USER_INLINE
byte k = K;
#ifdef ENDLESS
#define ONE_LESS
#else
#define ONE_LESS k--;
#endif
#ifdef WATCHED
#define TYPES_RED :: atomic { !red_typed -> x = RED; red_typed = true }
#define MAY_END (k == 0 && red_typed)
#else
#define TYPES_RED
#define MAY_END (true)
#endif
#ifdef ENDLESS
#define USER_ENDS
#else
#define USER_ENDS :: atomic { MAY_END -> user_ended = true; last = HangUp }
#endif
#ifdef ENDS
#define USER_RESTS
#else
#define USER_RESTS :: atomic { MAY_END && !user_silent -> user_silent = true; false }
#endif
#ifdef LEAVES
#define USER_LEAVES :: atomic { MAY_END && !link_left -> user_left = true; asks_to_close = true }
#else
#define USER_LEAVES
#endif
#define USER_TYPES(x) \
		:: atomic { k > 0 && !user_silent -> x = KEY; ONE_LESS } \
		TYPES_RED USER_ENDS USER_LEAVES
#define SHOWN(u) \
	if \
	:: u == RED -> red_shown = true \
	:: u == ANSWER -> answer_shown = true \
	:: else \
	fi
#endif

#define CLIENT
#include "parts.pml"
#include "server.pml"
#include "client.pml"

#ifndef USER_INLINE
proctype User() {
	byte k = K;
	do
	:: atomic { k > 0 && len(user) == 0 -> user!KEY;
#ifndef ENDLESS
		k--
#endif
		}
#ifdef WATCHED
	:: atomic { !red_typed && len(user) == 0 -> user!RED; red_typed = true }
#endif
	:: c_keys_done -> break
#ifndef ENDLESS
#ifdef WATCHED
	:: atomic { k == 0 && red_typed -> break }
#else
	:: break
#endif
#endif
	od;
#ifndef ENDLESS
	if
	:: user_ended = true
#ifndef ENDS
	:: user_silent = true
#endif
#ifdef LEAVES
	:: atomic { len(user) == 0 -> user!0; user_left = true }
#endif
	fi
#endif
}

#endif
#ifndef SCREEN_FREE
proctype Shows() {
	byte x;
	do
	:: atomic { nempty(screen) -> screen?x;
		if
		:: x == RED -> red_shown = true
		:: x == ANSWER -> answer_shown = true
		:: else
		fi; x = 0 }
	:: client_done -> break
#ifdef STUCK
	:: atomic { screen_stuck = true; break }
#endif
#ifdef DIES
	:: atomic { screen_dead = true; break }
#endif
	od
}

#endif
#ifndef EXCUSED
#define EXCUSED (	(user_silent && !t_over) || (screen_stuck && c_blocked_screen) )
#endif

proctype Watch() {
	timeout -> assert((client_done && server_done) || EXCUSED)
}

init {
	atomic { run Term(); run Clock(); run Core(); run Sending();
#ifndef USER_INLINE
		run User();
#endif
#ifndef SCREEN_FREE
		run Shows();
#endif
#ifndef NOWATCH
		run Watch()
#endif
	}
}

#ifdef LTL_RED
ltl red { [] (red_typed -> <> (job_read_red && red_shown && answer_shown)) }
#endif
#ifdef LTL_END
ltl end { [] ((user_ended || user_left || t_over) -> <> (client_done && server_done)) }
#endif
