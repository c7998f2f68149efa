//! The steps, one function a stage. Each reads or changes one shared word.
//!
//! The bucket is always the one in the worker's record, the epoch always the one
//! of the current word seen. Record fields that a step does not name keep their
//! values.
//!
//! The record is in range and so are the first words of the store. Of heads and nodes
//! nothing is assumed: a step goes to no place that it has only just read.

use crate::energy::energy;
use crate::layout::field;
use crate::response::{Answer, Refusal, Response};
use crate::store::{Reclamation, Store};
use crate::word::{
    current, current_bucket, current_epoch, is_marked, link, marked, successor, MAX_COUNT,
};
use crate::worker::{kind, stage, Worker};

/// One step of a worker, by its stage. A refused step changes nothing.
pub(crate) fn step(store: &mut Store<'_>, mut record: Worker) -> (Worker, Answer) {
    let worker = &mut record;
    let answer = match worker.stage {
        stage::IDLE => Err(Refusal::WorkerIdle),

        stage::SEARCH_HEAD => Ok(search_head(store, worker)),
        stage::SEARCH_LINK => Ok(search_link(store, worker)),
        stage::SEARCH_UNLINK => Ok(search_unlink(store, worker)),

        stage::ENQUEUE_PREPARE => Ok(enqueue_prepare(store, worker)),
        stage::ENQUEUE_INSERT => Ok(enqueue_insert(store, worker)),
        stage::ENQUEUE_COMPARE => Ok(enqueue_compare(store, worker)),
        stage::ENQUEUE_LOWER => enqueue_lower(store, worker),

        stage::DEQUEUE_CURRENT => Ok(dequeue_current(store, worker)),
        stage::DEQUEUE_HEAD => Ok(dequeue_head(store, worker)),
        stage::DEQUEUE_LINK => Ok(dequeue_link(store, worker)),
        stage::DEQUEUE_MARK => Ok(dequeue_mark(store, worker)),
        stage::DEQUEUE_ADVANCE => Ok(dequeue_advance(store, worker)),
        stage::DEQUEUE_CONFIRM => Ok(dequeue_confirm(store, worker)),

        _ => Err(Refusal::FieldOutOfRange),
    };
    (record, answer)
}

// Search for the own node's key.

/// 1: the head's successor is right, the head itself left.
fn search_head(store: &Store<'_>, worker: &mut Worker) -> Response {
    worker.left = worker.bucket;
    search_on(store, worker, successor(store.head(worker.bucket)))
}

/// 2: unlink a marked right, pass a lower one, stop at any other.
fn search_link(store: &Store<'_>, worker: &mut Worker) -> Response {
    worker.link_seen = store.node(worker.right, field::LINK);
    if is_marked(worker.link_seen) {
        return go_on(worker, stage::SEARCH_UNLINK);
    }
    if store.key(worker.right) < store.key(worker.own) {
        worker.left = store.left_of_node(worker.right);
        return search_on(store, worker, successor(worker.link_seen));
    }
    search_end(store, worker)
}

/// 3: take right out of the list, and retire it.
fn search_unlink(store: &mut Store<'_>, worker: &mut Worker) -> Response {
    let next = successor(worker.link_seen);
    if !store.swap_left(worker.left, link(worker.right), link(next)) {
        return go_on(worker, stage::SEARCH_HEAD);
    }
    store.set_reclamation(worker.right, Reclamation::Retired(store.started()));
    search_on(store, worker, next)
}

/// Right moves; becoming end, it ends the search in this same step.
fn search_on(store: &Store<'_>, worker: &mut Worker, right: u64) -> Response {
    worker.right = right;
    if right == store.end() {
        search_end(store, worker)
    } else {
        go_on(worker, stage::SEARCH_LINK)
    }
}

/// An enqueue goes on to insert its node, a dequeue answers.
fn search_end(store: &Store<'_>, worker: &mut Worker) -> Response {
    if worker.kind == kind::ENQUEUE {
        go_on(worker, stage::ENQUEUE_PREPARE)
    } else {
        answer(worker, took(store, worker.own))
    }
}

// Enqueue, after the search.

/// 4: the own node gets its epoch and its link.
fn enqueue_prepare(store: &mut Store<'_>, worker: &mut Worker) -> Response {
    worker.current_seen = store.current();
    store.set_node(worker.own, field::EPOCH, current_epoch(worker.current_seen));
    store.set_node(worker.own, field::LINK, link(worker.right));
    go_on(worker, stage::ENQUEUE_INSERT)
}

/// 5: link the own node between left and right.
fn enqueue_insert(store: &mut Store<'_>, worker: &mut Worker) -> Response {
    if store.swap_left(worker.left, link(worker.right), link(worker.own)) {
        go_on(worker, stage::ENQUEUE_COMPARE)
    } else {
        go_on(worker, stage::SEARCH_HEAD)
    }
}

/// 6: a lower current bucket finds the arrival by itself.
fn enqueue_compare(store: &Store<'_>, worker: &mut Worker) -> Response {
    worker.current_seen = store.current();
    if current_bucket(worker.current_seen) < worker.bucket {
        answer(worker, Response::Stored(worker.ticket))
    } else {
        go_on(worker, stage::ENQUEUE_LOWER)
    }
}

/// 7: lower current to the arrival's bucket, in a new epoch. Refusal 11 is only
/// for a swap that would succeed.
fn enqueue_lower(store: &mut Store<'_>, worker: &mut Worker) -> Answer {
    let seen = worker.current_seen;
    let epoch = current_epoch(seen);
    if store.current() != seen {
        return Ok(go_on(worker, stage::ENQUEUE_COMPARE));
    }
    if epoch == MAX_COUNT {
        return Err(Refusal::CountExhausted);
    }
    store.set_current(current(worker.bucket, epoch + 1));
    Ok(answer(worker, Response::Stored(worker.ticket)))
}

// Dequeue.

/// 8: read the current bucket and epoch.
fn dequeue_current(store: &Store<'_>, worker: &mut Worker) -> Response {
    see_current(worker, store.current());
    go_on(worker, stage::DEQUEUE_HEAD)
}

/// 9: enter the bucket's list.
fn dequeue_head(store: &Store<'_>, worker: &mut Worker) -> Response {
    walk_on(store, worker, successor(store.head(worker.bucket)))
}

/// 10: pass a marked node, read current again before one of a later epoch, and
/// try to mark any other.
fn dequeue_link(store: &Store<'_>, worker: &mut Worker) -> Response {
    worker.link_seen = store.node(worker.right, field::LINK);
    if is_marked(worker.link_seen) {
        return walk_on(store, worker, successor(worker.link_seen));
    }
    if store.node(worker.right, field::EPOCH) > current_epoch(worker.current_seen) {
        return go_on(worker, stage::DEQUEUE_CURRENT);
    }
    go_on(worker, stage::DEQUEUE_MARK)
}

/// 11: mark the node; it becomes the own node, and is searched for.
fn dequeue_mark(store: &mut Store<'_>, worker: &mut Worker) -> Response {
    if !store.swap_link(worker.right, worker.link_seen, marked(worker.link_seen)) {
        return go_on(worker, stage::DEQUEUE_LINK);
    }
    worker.own = worker.right;
    go_on(worker, stage::SEARCH_HEAD)
}

/// 12: advance current to the next bucket, in the same epoch.
fn dequeue_advance(store: &mut Store<'_>, worker: &mut Worker) -> Response {
    let epoch = current_epoch(worker.current_seen);
    let advanced = current(worker.bucket + 1, epoch);
    if !store.swap_current(current(worker.bucket, epoch), advanced) {
        return go_on(worker, stage::DEQUEUE_CURRENT);
    }
    see_current(worker, advanced);
    go_on(worker, stage::DEQUEUE_HEAD)
}

/// 13: empty, if current is still what it was.
fn dequeue_confirm(store: &Store<'_>, worker: &mut Worker) -> Response {
    let epoch = current_epoch(worker.current_seen);
    if store.current() == current(worker.bucket, epoch) {
        answer(worker, Response::Empty)
    } else {
        go_on(worker, stage::DEQUEUE_CURRENT)
    }
}

/// Right moves; becoming end, it leaves the bucket in this same step.
fn walk_on(store: &Store<'_>, worker: &mut Worker, right: u64) -> Response {
    worker.right = right;
    let next = if right != store.end() {
        stage::DEQUEUE_LINK
    } else if worker.bucket != store.last_bucket() {
        stage::DEQUEUE_ADVANCE
    } else {
        stage::DEQUEUE_CONFIRM
    };
    go_on(worker, next)
}

/// Steps 8 and 12 set the bucket together with the current word seen.
fn see_current(worker: &mut Worker, seen: u64) {
    worker.current_seen = seen;
    worker.bucket = current_bucket(seen);
}

fn go_on(worker: &mut Worker, stage: u64) -> Response {
    worker.stage = stage;
    Response::On
}

fn answer(worker: &mut Worker, response: Response) -> Response {
    worker.stage = stage::IDLE;
    response
}

fn took(store: &Store<'_>, node: u64) -> Response {
    let distance = store.node(node, field::DISTANCE);
    Response::Took {
        time: store.node(node, field::TIME),
        path: store.node(node, field::PATH),
        order: store.node(node, field::ORDER),
        distance,
        energy: energy(distance),
    }
}
