/* What the models share: byte streams of a connection, the mailbox with its senders, faults.
   A unit of a stream stands for some bytes. Names are those of the code where there are any. */

#ifndef M
#define M 2		/* how many mails a mailbox holds: MAILS, 64 */
#endif
#ifndef SOCK
#define SOCK 1		/* how many units a direction of a connection holds: both socket buffers */
#endif
#ifndef FAULTS
#define FAULTS 0	/* how many faults may come: no memory, a failed read or write, a refused call */
#endif

#ifdef CLIENT
bool link_closed, link_left, link_down;	/* Link: nothing more comes; the user has left (Link::leave); both directions are shut */
bool link_dark;	/* the screen takes no more */
#endif

#define C2S 0		/* from the client to the server */
#define S2C 1
#define G2L 2		/* from the gateway to the line service */
#define L2G 3

/* units */
#define KEY 1
#define RED 2		/* the key that is watched; as an entry, an echo and an answer too */
#define REQ 3		/* what a client has to reply to */
#define TEXT 4
#define ANSWER 5	/* what the job says to the watched entry */
#define REPLY 6

chan wire[4] = [SOCK] of { byte };
bool fin[4];		/* its writer has shut it down: its reader finds the end behind what is on its way */
bool deaf[4];		/* its reader has closed: a write to it fails */
bool struck[4];		/* one did */

/* the other direction is reset: its writer has closed, and left something of this one unread */
#define IS_RESET(d)	(deaf[d] && (struck[d] || nempty(wire[d])))

byte faults = FAULTS;

#define MAY_FAIL	(faults > 0)
#define FAIL		faults--

/* the mailbox of a server's session, and that of a client's */
#define SRV 0
#define CLI 1
mtype = { Piece, HangUp, ReadFailed, Take, Said, Refused, Left, Resized };
chan box[2] = [M] of { byte, mtype, byte, byte, byte };	/* from, what, units, the last unit, after */
bool box_up[2] = true;	/* its receiver is there */

/* who sends */
#define NET 0
#define DESK 1
#define BACK 2
#define KEYS 3

/* say: waits for room; false where the other end is gone. FAIRBOX: first come, first served, as the kernel wakes who
   sleeps longest. Without it whoever comes by takes a free place (barging), as `send_as` does. */
#ifdef FAIRBOX
chan queue[2] = [4] of { byte };
inline say(b, who, m, n, u, a, ok) {
	if
	:: atomic { box_up[b] && nfull(box[b]) && empty(queue[b]) -> box[b]!who,m,n,u,a; ok = true }
	:: atomic { box_up[b] && (full(box[b]) || nempty(queue[b])) -> queue[b]!who };
		if
		:: atomic { box_up[b] && nfull(box[b]) && queue[b]?[eval(who)] ->
			queue[b]?eval(who); box[b]!who,m,n,u,a; ok = true }
		:: atomic { !box_up[b] -> ok = false }
		fi
	:: atomic { !box_up[b] -> ok = false }
	fi
}
#else
/* NEVER_FULL: a mailbox of AHEAD + 6 places has room for whoever comes, with IDLE one of AHEAD + 7 */
#ifdef NEVER_FULL
#define HAS_ROOM(b) assert(nfull(box[b]))
#else
#define HAS_ROOM(b) skip
#endif
inline say(b, who, m, n, u, a, ok) {
	HAS_ROOM(b);
	if
	:: atomic { box_up[b] && nfull(box[b]) -> box[b]!who,m,n,u,a; ok = true }
	:: atomic { !box_up[b] -> ok = false }
	fi
}
#endif

/* one unit to a stream: waits for room, and fails where the reader has closed or this side has shut down */
inline put_unit(d, u, ok) {
	if
	:: atomic { !deaf[d] && !fin[d] && nfull(wire[d]) -> wire[d]!u; ok = true }
	:: atomic { fin[d] -> ok = false }
	:: atomic { deaf[d] && !fin[d] -> struck[d] = true; ok = false }
	:: atomic { MAY_FAIL -> FAIL; ok = false }
#if defined(IDLE) && !defined(MUT_WRITES_FOR_EVER)
	:: atomic { d == S2C && peer_silent && full(wire[S2C]) -> ok = false }	/* the peer takes nothing for the time of --idle */
#endif
#if defined(CLIENT) && !defined(MUT_SENDING_WAITS)
	:: atomic { d == C2S && (link_left || link_dark || link_closed) && full(wire[C2S]) -> ok = false }	/* Link::is_late */
#endif
	fi
}
