/* The wake-ups of lnsd's threads. README.md says what is modelled, and what isn't.
 *
 * A line `crate/file: Type::function` names the code of the steps after it. The first time, the
 * order of this function's calls follows (test_orders.py). A step is one action on what threads
 * share, and all interleavings of these steps are searched. What a thread does under a lock is one
 * action, except for a greeting that takes a name over.
 *
 *   -DRUN        models `lnsd run`, where an application's link ends or is taken over. Without it,
 *                `lnsd serve` is modelled.
 *   -DENDS       The life ends, and each thread has to end. Without it, links stay.
 *   -DFAULT_..   plants a fault.
 */

/* The numbers of open windows whose moment is to come, and of those whose moment has come. */
byte later, due;

/* The closer saw a window; the moment of the oldest one has come. */
bit is_timed, is_due;

/* Decisions wait in the core; effects wait in the application's ring. Whoever takes some takes all,
 * so their number makes no difference. */
bit untaken, ring;

/* The signals, those of lnsd_links. A Parker of std is a token, which `unpark` sets, and `park`
 * waits for and takes. */
byte open_inputs = 3;
bit closer_idle, frames_decided, ticked, opened_bell, decided_bell;

/* The flusher has ended the rings. */
bit is_finished;

/* The number of threads that have ended. Those of senders of `run` are counted by their places. */
byte ended;

#ifdef RUN
/* The life was asked to end, no link comes in any more, and the gateways' inputs are ended. */
bit ending, is_door_shut, gateways_shut;
#endif

/* Time passes. */
active proctype time() {
end_time:
    do
    :: atomic { later -> later--; due++; is_due = is_timed }
    od
}

/* session_core/closing: Core::close_oldest: match keep_oldest { { if { return } windows.close } }
 * A decision is made, or the frame is refused. */
inline close_oldest() {
    due--;
    if
    :: untaken = true; is_decided = true
    :: true
    fi
}

/* session_core/closing: Core::begin: close_due
 * session_core/closing: Core::close_due: for { if !close_oldest { return } }
 * Closes windows that are due. The moment was read before the lock was taken, so more of them may
 * be due by now. */
inline begin() {
    do
    :: due -> close_oldest()
    :: break
    od
}

/* lnsd_links/signals: Signals::end_input: if open_inputs.fetch_sub(1) { opened.unpark } */
inline end_input() {
#ifdef FAULT_BELL_BEFORE_END_OF_INPUT
    atomic { if :: open_inputs == 1 -> opened_bell = true :: else fi }
    open_inputs--
#else
    if
    :: atomic { open_inputs == 1 -> open_inputs = 0 }
       opened_bell = true
    :: atomic { open_inputs > 1 -> open_inputs-- }
    fi
#endif
}

/* ---- A gateway's worker ---- */

#define NEXT if :: copies -> goto hear_copy :: else -> goto read fi

proctype gateway_worker(byte copies) {
    bit is_decided;
    atomic { NEXT }
hear_copy:
#ifdef FAULT_OPENED_BEFORE_HEARD
    if
    :: atomic { closer_idle -> closer_idle = false }
       opened_bell = true
    :: else
    fi;
#endif
    /* lnsd_threads/reading: Worker::handle_copy: handle if { tell_frames } tell_opened
     * lnsd_threads/observing: LiveServer::handle: handle
     * session_core/locked: Sessions::handle: let lock handle_in
     * session_core/events: Core::handle_seen: match begin { work }
     * session_core/closing: Core::listen: if { return } windows.add
     * A copy opens a window, or joins one or is refused. */
    atomic {
        copies--;
        begin();
        if :: later++ :: true fi;
        if :: is_decided -> is_decided = false :: else -> goto tell_opened fi
    }
#ifdef FAULT_OPENED_BEFORE_FRAMES
    if
    :: atomic { closer_idle -> closer_idle = false }
       opened_bell = true
    :: else
    fi;
    atomic { frames_decided = true; NEXT }
#endif
    /* lnsd_links/signals: Signals::tell_frames: frames_decided.store(true) */
    frames_decided = true;
tell_opened:
    /* lnsd_links/signals: Signals::tell_opened: if closer_idle.swap(false) { opened.unpark } */
#ifdef FAULT_OPENED_BEFORE_HEARD
    atomic { NEXT }
#endif
    atomic { if :: closer_idle -> closer_idle = false :: else -> NEXT fi }
    atomic { opened_bell = true; NEXT }
read:
#ifdef ENDS
#ifdef RUN
    /* lnsd_threads/reading: Worker::read:
     *     for { match { { end break } { if !handle_piece || is_closed { break } } } }
     * Waits until the operator ends the input. */
    gateways_shut;
#endif
    end_input();
    ended++;
#endif
end_over:
    false
}

/* ---- The closer ---- */

active proctype closer() {
    bit is_decided, is_last;
    /* lnsd_threads/closing: Closer::run:
     *     for { if is_over { break } wait_for_window if !tick { pause } }
     *     if !is_stopped { close_all } tell_ticked */
turn:
#ifdef ENDS
    /* lnsd_links/signals: Signals::is_over: is_stopped || open_inputs.load */
    if
    :: open_inputs == 0 -> goto last
    :: else
    fi;
#endif
    /* lnsd_threads/closing: Closer::wait_for_window:
     *     set_idle next_due if && !has_frames { opened.park } clear_idle if { wait }
     * lnsd_links/signals: Signals::set_idle: closer_idle.store(true)
     * session_core/locked: Sessions::next_due: lock next_due
     * lnsd_links/signals: Signals::has_frames: frames_decided.load */
#ifndef FAULT_IDLE_AFTER_LOOK
    closer_idle = true;
#endif
    atomic {
        is_timed = (due || later);
        is_due = (due > 0);
        if :: is_timed -> goto clear :: else fi
    }
#ifdef FAULT_IDLE_AFTER_LOOK
    closer_idle = true;
#endif
#ifndef FAULT_NO_LOOK_FOR_FRAMES
    if
    :: frames_decided -> goto clear
    :: else
    fi;
#endif
end_park:
    atomic { opened_bell -> opened_bell = false }
clear:
    /* lnsd_links/signals: Signals::clear_idle: closer_idle.store(false) */
    atomic { closer_idle = false; if :: is_timed :: else -> goto tick fi }
    /* lnsd_threads/moments: Monotonic::wait: if { park_timeout }
     * If the moment has come, it may wait for the least time between two turns, or not at all. */
    if
    :: is_due -> goto tick
    :: atomic { is_due || opened_bell }
    fi;
    opened_bell = false;
tick:
    /* lnsd_threads/closing: Closer::tick: handle(Tick) if { tell_frames } ring_for_frames
     * lnsd_threads/observing: LiveServer::handle
     * session_core/locked: Sessions::handle
     * session_core/events: Core::handle_seen */
    atomic {
        is_timed = false;
        is_due = false;
        do
        :: due -> close_oldest()
        :: else -> break
        od;
        if :: is_decided -> is_decided = false :: else -> goto tell fi
    }
    frames_decided = true;
tell:
    /* lnsd_links/signals: Signals::ring_for_frames:
     *     if frames_decided.swap(false) { decided.unpark } */
    atomic {
        if
        :: frames_decided -> frames_decided = false
        :: else -> if :: is_last -> goto tick_told :: else -> goto turn fi
        fi
    }
    atomic { decided_bell = true; if :: is_last -> goto tick_told :: else -> goto turn fi }
last:
#ifdef FAULT_TICKED_BEFORE_CLOSING
    ticked = true;
    decided_bell = true;
#endif
    /* lnsd_threads/closing: Closer::close_all: for { if tick { break } pause }
     * A tick after the last moment closes all windows. */
    atomic { due = due + later; later = 0; is_last = true; goto tick }
tick_told:
    /* lnsd_links/signals: Signals::tell_ticked: reach(Ticked) decided.unpark */
#ifndef FAULT_TICKED_BEFORE_CLOSING
    ticked = true;
    decided_bell = true;
#endif
    ended++;
end_over:
    false
}

/* ---- The flusher ---- */

#ifdef RUN
#define NOBODY 2
/* Of the two places for links of the application: the place whose link has the name; and for each
 * place, the bell of its sender, and what others say to its link. */
byte holder = 0;
bit bell[2], over[2], taken[2], shut[2], shown[2] = { true, false };
/* A greeting has locked the directory. */
bit is_taking_over;
#else
/* The directory has the peer's name; its sender runs; the bell of the sender. */
bit is_greeted, is_sending, bell;
#endif

#define CONTINUE if :: following -> following = false; goto follow :: else -> goto chain fi

active proctype flusher() {
    bit following, is_ticked;
#ifdef RUN
    byte marked;
#endif
chain:
    /* flusher/serving: serve: for { if chain && done { return } }
     * flusher/chaining: chain: take if { return } begin follow
     * flusher/chaining: take: next
     * flusher/drawn: Drawn::next: take
     * session_core/locked: Sessions::take: lock take */
    atomic { if :: untaken -> untaken = false :: else -> goto is_done fi }
follow:
    /* flusher/chaining: begin_following: if || { return } take if { return } begin_next
     * It takes nothing more if the chain or the journal has no more room. */
    atomic { if :: following = untaken; untaken = false :: true fi }
#ifdef FAULT_BELL_BEFORE_RING
    bell = true;
#endif
    /* flusher/chaining: release: release
     * lnsd_life/flushing: let_out: let directory.lock let_out_by drop ring_links
     * lnsd_links/routing: route: for { match route_one { } }
     * lnsd_life/flushing: mark_links: for { mark_link }
     * What is put into the ring under the lock of the directory, and whose bell is to be rung. */
#ifdef RUN
    atomic {
        !is_taking_over;
        ring = true;
        marked = holder;
        if :: marked == NOBODY -> CONTINUE :: else fi
    }
    /* lnsd_life/flushing: ring_links: for { if { bell.unpark } } */
    atomic { bell[marked] = true; marked = 0; CONTINUE }
#else
    atomic { if :: is_greeted -> ring = true :: else -> CONTINUE fi }
#ifdef FAULT_BELL_BEFORE_RING
    atomic { CONTINUE }
#endif
    /* lnsd_life/flushing: ring_links */
    atomic { bell = true; CONTINUE }
#endif
is_done:
    /* lnsd_life/flushing: is_done:
     *     if { return } if !has_reached(Ticked) { wait_for_decisions } has_reached(Ticked) */
    if
    :: is_ticked -> goto finish
    :: atomic { !is_ticked && ticked -> goto see }
    :: else
    fi;
    /* lnsd_links/signals: Signals::wait_for_decisions: decided.park */
end_park:
    atomic { decided_bell -> decided_bell = false }
see:
    /* lnsd_links/signals: Signals::has_reached: stage.load */
    atomic { is_ticked = ticked }
#ifdef FAULT_END_AT_TICK
    if :: is_ticked -> goto finish :: else fi;
#endif
    goto chain;
finish:
    /* lnsd_life/flushing: flush:
     *     { { taken_so_far let_out } || { taken_so_far is_done } serve }
     *     if { stop } finish ring_senders
     * lnsd_life/flushing: finish: for { finish } */
    is_finished = true;
    /* lnsd_threads/server: LiveServer::ring_senders: for { bell.unpark } */
#ifdef RUN
    bell[0] = true;
    bell[1] = true;
#else
    bell = true;
#endif
    ended++;
end_over:
    false
}

#ifndef RUN
/* ---- An application of `serve`: a worker and its link's sender ---- */

bit refusals;

#define MAY_ASK if :: goto read :: true fi

active proctype application_worker() {
    bit is_decided, is_refused;
#ifdef ENDS
    /* It has greeted before, and the sender runs. */
    atomic { is_greeted = true; is_sending = true }
#else
    /* lnsd_threads/hosting: Worker::take_over:
     *     let directory.lock named match { { return } { return } }
     * lnsd_links/names: Directory::greet: if && { return } give */
    is_greeted = true;
    /* lnsd_threads/hosting: hold: start_sender if && handle_all { read } end_link
     * lnsd_threads/threads: start: spawn_scoped */
    atomic { is_sending = true; MAY_ASK }
#endif
#ifdef FAULT_RING_BEFORE_ASKING
    decided_bell = true;
#endif
    /* lnsd_threads/reading: Worker::ask: handle if { ring_flusher }
     * lnsd_threads/observing: LiveServer::handle
     * session_core/locked: Sessions::handle
     * session_core/events: Core::handle_seen */
    atomic {
        begin();
        if
        :: untaken = true; is_decided = true
#ifndef ENDS
        :: is_refused = true
#endif
        fi;
        if :: is_decided -> is_decided = false :: else -> goto refused fi
    }
#ifndef FAULT_RING_BEFORE_ASKING
    /* lnsd_links/signals: Signals::ring_flusher: decided.unpark */
    decided_bell = true;
#endif
    atomic { if :: is_refused :: else -> goto read fi }
refused:
    /* lnsd_threads/reading: Worker::tell_asker: if { refusals.push bell.unpark } */
#ifdef FAULT_BELL_BEFORE_REFUSAL
    bell = true;
    refusals = true;
#else
    refusals = true;
    bell = true;
#endif
    atomic { is_refused = false }
read:
#ifdef ENDS
    /* lnsd_threads/hosting: Worker::end_link:
     *     if ending { end_input return } if && { end_input return }
     *     let directory.lock leave drop set_over */
    end_input();
    /* lnsd_threads/hosting: Worker::converse: { hold }
     * Its scope joins the sender. */
end_join:
    !is_sending;
    ended++;
#endif
end_over:
    false
}

/* lnsd_links/writing: HostSender::run:
 *     spare.lock take else { return } match { send send_lines } spare.lock
 * lnsd_links/writing: Sender::run:
 *     for { if is_stopped { break } may_write else { break }
 *     is_last if send_some { continue } if { break } bell.park } shutdown(Write) */
active proctype application_sender() {
    bit is_last;
end_start:
    is_sending;
look:
#if defined(ENDS) && !defined(FAULT_LAST_AFTER_LOOK)
    /* lnsd_links/writing: Sender::is_last: is_over || is_finished
     * outbox/ends: Inlet::is_finished: is_abandoned */
    atomic { is_last = is_finished }
#endif
    /* lnsd_links/writing: Sender::send_some: hand_over
     * lnsd_links/writing: Sender::gather_refusals: for { refusals.pop else { break } }
     * lnsd_links/writing: Sender::gather_effects: gather
     * lnsd_links/gathering: gather: for { if { break } take else { break } } */
    atomic {
        if
        :: refusals || ring -> refusals = false; ring = false; is_last = false; goto look
        :: else
        fi;
#ifndef FAULT_LAST_AFTER_LOOK
        if :: is_last -> goto last :: else fi
#endif
    }
#ifdef FAULT_LAST_AFTER_LOOK
    atomic { if :: is_finished -> goto last :: else fi }
#endif
end_park:
    atomic { bell -> bell = false; goto look }
last:
    atomic { is_sending = false; ended++ }
end_over:
    false
}

#define THREADS 6
#define IS_NOTHING_LEFT (!later && !due && !untaken && !ring && !refusals)

#else
/* ---- An application of `run`: two places, each with a worker, and a sender for each link ---- */

/* The end of the application's ring from which its lines come is there for a sender. */
bit has_lines;
/* A place's sender runs. */
bit is_sending[2] = { true, false };

/* The first place has a link, which may end by itself. The second place gets a link, which takes
 * the name over. */
proctype place_worker(bit place) {
    bit has_had_link = !place, will_end, has_ended;
    byte older = NOBODY;
    atomic {
        if
#ifdef ENDS
        :: !place -> goto accept
#endif
        :: place -> goto accept
        :: else -> if :: will_end = true :: true fi
        fi
    }
read:
    /* lnsd_threads/reading: Worker::read */
end_read:
    atomic { shut[place] || will_end }
    /* lnsd_threads/hosting: Worker::end_link */
#ifdef ENDS
    if
    :: ending ->
        end_input();
        atomic { has_ended = true; goto join }
    :: else
    fi;
#endif
    /* lnsd_links/names: Directory::leave */
    atomic { !is_taking_over; if :: holder == place -> holder = NOBODY :: else fi }
    /* lnsd_links/link: Link::set_over: over.store(true) bell.unpark */
#ifdef FAULT_OVER_AFTER_BELL
    bell[place] = true;
    over[place] = true;
#else
    over[place] = true;
    bell[place] = true;
#endif
join:
    /* lnsd_threads/hosting: Worker::converse
     * Its scope joins the sender. */
end_join:
    !is_sending[place];
hide:
    /* lnsd_links/link: Link::hide: current.lock */
    atomic { shown[place] = false; shut[place] = false; will_end = false }
accept:
    /* lnsd_threads/hosting: Worker::run:
     *     for { next if is_ending { break } match { serve if pause break } } end_input
     * lnsd_links/door: Entrance::next: match { lock take accept } */
end_accept:
    atomic {
        if
        :: !has_had_link -> has_had_link = true
        :: is_door_shut -> goto no_more
        fi
    }
#ifdef ENDS
    /* lnsd_links/signals: Signals::is_ending: has_reached(Ending) || is_stopped */
    if
    :: ending -> goto no_more
    :: else
    fi;
#endif
    /* lnsd_threads/hosting: Worker::serve:
     *     else { return } show if !is_ending { welcome } if { hide }
     * lnsd_links/link: Link::show:
     *     over.store(false) disconnected.store(false) last_copy.store(0) current.lock */
#ifndef FAULT_SHOWN_AFTER_LOOK
    shown[place] = true;
#endif
#ifdef ENDS
    if
    :: ending -> goto hide
    :: else
    fi;
#endif
#ifdef FAULT_SHOWN_AFTER_LOOK
    shown[place] = true;
#endif
    /* lnsd_threads/hosting: Worker::welcome:
     *     else { return } else { return } if take_over { begin_link converse drop_rest }
     * lnsd_threads/hosting: Worker::take_over
     * lnsd_links/names: Directory::take_over: give close_link_of */
    atomic {
        !is_taking_over;
        older = holder;
        holder = place;
        if :: older == NOBODY -> goto start :: else -> is_taking_over = true fi
    }
    /* lnsd_links/link: Link::disconnect: disconnected.store(true) close */
    taken[older] = true;
    /* lnsd_links/link: Link::close: shut(Both) bell.unpark pause.unpark
     * lnsd_links/link: Link::shut: if current.lock { shutdown } */
    atomic { if :: shown[older] -> shut[older] = true :: else fi }
    atomic { bell[older] = true; is_taking_over = false; older = NOBODY }
start:
    /* lnsd_threads/hosting: hold
     * lnsd_threads/threads: start */
    atomic { is_sending[place] = true; goto read }
no_more:
#ifdef ENDS
    if
    :: has_ended
    :: else -> end_input()
    fi;
    ended++;
#endif
end_over:
    false
}

/* lnsd_links/writing: HostSender::run */
proctype place_sender(bit place) {
    bit is_last;
#ifndef ENDS
    atomic { if :: !place -> goto look :: else fi }
#endif
idle:
end_idle:
    is_sending[place];
    /* lnsd_links/writing: HostSender::send_lines:
     *     wait_for else { return } send give_back for { bell.unpark }
     * lnsd_links/writing: HostSender::wait_for:
     *     for { take if { return }
     *     if is_over || is_disconnected || is_stopped { return } bell.park }
     * lnsd_links/rings: WaitingLines::take: lines.lock take */
wait_for:
    atomic { if :: has_lines -> has_lines = false; goto look :: else fi }
    atomic { if :: over[place] -> goto gone :: else fi }
    atomic { if :: taken[place] -> goto gone :: else fi }
end_wait:
    atomic { bell[place] -> bell[place] = false; goto wait_for }
look:
    /* lnsd_links/writing: HostSender::send: run
     * lnsd_links/writing: Sender::run
     * lnsd_links/writing: Sender::may_write: if { return } if { return } named */
    atomic { if :: taken[place] -> goto give_back :: else fi }
    /* lnsd_links/writing: Sender::is_last */
    atomic { is_last = over[place] || is_finished }
    /* lnsd_links/writing: Sender::send_some */
    atomic {
        if :: ring -> ring = false; is_last = false; goto look :: else fi;
        if :: is_last -> is_last = false; goto give_back :: else fi
    }
end_park:
    atomic { bell[place] -> bell[place] = false; goto look }
give_back:
    /* lnsd_links/writing: HostSender::send_lines
     * lnsd_links/rings: WaitingLines::give_back: lines.lock */
#ifdef FAULT_LINES_AFTER_BELLS
    bell[0] = true;
    bell[1] = true;
    has_lines = true;
#else
    has_lines = true;
    bell[0] = true;
    bell[1] = true;
#endif
gone:
    atomic { is_sending[place] = false; goto idle }
}

#ifdef ENDS
/* lnsd_threads/server: LiveServer::end: reach(Ending) shut_door for { close_input } */
active proctype operator() {
    /* lnsd_links/signals: Signals::reach: stage.fetch_max */
    ending = true;
    /* lnsd_threads/server: LiveServer::shut_door: if { shut } */
    is_door_shut = true;
    /* lnsd_links/link: Link::close_input: shut(Read) pause.unpark */
    gateways_shut = true;
    atomic { if :: shown[0] -> shut[0] = true :: else fi }
    atomic { if :: shown[1] -> shut[1] = true :: else fi }
end_over:
    false
}
#endif

#define THREADS 5
#define IS_NOTHING_LEFT (!later && !due && !untaken && (holder == NOBODY || !ring))

#endif

/* When all threads sleep, nothing is left; and each thread has ended if the life ends. */
active proctype watcher() {
    timeout;
    assert(IS_NOTHING_LEFT);
#ifdef ENDS
    assert(ended == THREADS)
#endif
}

init {
    atomic {
#if defined(RUN) && defined(ENDS)
        /* A request was decided before, and no copy comes. */
        untaken = true;
        decided_bell = true;
        /* The first place has no link, so the second one's link takes nothing over. */
        holder = NOBODY;
        has_lines = true;
        is_sending[0] = false;
        shown[0] = false;
        run gateway_worker(0);
#else
        run gateway_worker(1);
#endif
#ifdef RUN
        run place_worker(0);
        run place_worker(1);
        run place_sender(0);
        run place_sender(1)
#else
#ifdef ENDS
        run gateway_worker(0)
#else
        run gateway_worker(1)
#endif
#endif
    }
}
