//! The dialogue portion (02 a): names and informations given in every state, portions received and read.

use super::giving;
use super::limits::{invoke, parameter_for, OPERATION};
use super::pdus;
use super::random::Random;
use super::recorder::Recorder;
use super::samples::{self, Parts};
use super::tree::Tree;
use crate::calls::{Reply, Request};
use crate::coding;
use crate::dialogue::{Dialogue, State};
use crate::given::{Given, Pdu};
use crate::writing;

const SERVICE: u32 = 6;

pub fn sequences(random: &mut Random) -> Vec<Recorder> {
    let mut recorder = Recorder::open_to_all();
    for _ in 0..random.within(15, 40) {
        match random.below(9) {
            0..=2 => given(&mut recorder, random),
            3 | 4 => sized(&mut recorder, random),
            5 | 6 => received(&mut recorder, random),
            _ => read_alone(&mut recorder, random),
        }
    }
    vec![recorder]
}

/// A dialogue in any of the four states; in Received and Active rejects may wait.
fn any_dialogue(recorder: &mut Recorder, random: &mut Random) -> Option<u32> {
    match random.below(8) {
        0..=2 => recorder.open(SERVICE),
        3..=5 => begun(recorder, random),
        6 => recorder.active(random, SERVICE),
        _ => {
            let local_id = recorder.open(SERVICE)?;
            recorder.request(SERVICE, local_id, Request::Begin(giving::sometimes(random, 30)));
            Some(local_id)
        }
    }
}

/// A dialogue begun by a peer whose results nobody waited for, so that as many rejects wait.
fn begun(recorder: &mut Recorder, random: &mut Random) -> Option<u32> {
    let results = [0xA2, 3, 2, 1, 99].repeat(random.pick(&[0, 0, 1, 2, 3, 7, 8, 9]));
    let mut contents = coding::write(0x48, &samples::peer_id(random));
    if random.chance(30) {
        contents.extend(pdus::sound(random).encode());
    }
    if !results.is_empty() {
        contents.extend(coding::write(0x6C, &results));
    }
    recorder.receive(SERVICE, coding::write(0x62, &contents)).rows.first().map(|row| row.local_id)
}

/// Something of any kind given in any state, then the same sending without it: a refusal changed nothing.
fn given(recorder: &mut Recorder, random: &mut Random) {
    let Some(local_id) = any_dialogue(recorder, random) else { return };
    if random.chance(65) {
        let length = random.within(8, 40);
        wait(recorder, random, local_id, length);
    }
    let given = giving::any(random);
    let request = match recorder.find(local_id).map(|dialogue| dialogue.state) {
        _ if random.chance(20) => giving::sending(random, given),
        _ if random.chance(20) => Request::Abort { portion: giving::for_abort(random) },
        Some(State::Open) => random.pick(&[Request::Begin(given.clone()), Request::Unidirectional(given)]),
        _ => random.pick(&[Request::Continue(given.clone()), Request::End(given)]),
    };
    let reply = recorder.request(SERVICE, local_id, request);
    follow(recorder, random, &reply);
    recorder.request(SERVICE, local_id, random.pick(&[Request::Continue(Given::NONE), Request::Begin(Given::NONE)]));
    recorder.request(SERVICE, local_id, Request::Prearranged);
}

/// The message that a sending wrote: its portion read, and now and then handed over to the same table.
fn follow(recorder: &mut Recorder, random: &mut Random, reply: &Reply) {
    if reply.message.is_empty() {
        return;
    }
    recorder.read_portion(random, &reply.message);
    if random.chance(25) {
        recorder.receive(SERVICE, reply.message.clone());
    }
}

/// An invoke waits whose component has this length, as far as one can.
fn wait(recorder: &mut Recorder, random: &mut Random, local_id: u32, length: usize) {
    let id = samples::any_id(random);
    let parameter = parameter_for(length, |given| writing::invoke(id, None, &OPERATION, given));
    let class = random.pick(&[4, 4, 4, 4, 4, 1]);
    recorder.request(SERVICE, local_id, invoke(id, class, parameter.unwrap_or_default()));
}

/// 239 to 241 octets of portion and components, with the waiting rejects or without.
fn sized(recorder: &mut Recorder, random: &mut Random) {
    let Some(local_id) = any_dialogue(recorder, random) else { return };
    if random.chance(85) {
        let length = random.pick(&[8, 40, 100, 120, 130, 190, 205, 210, 214]);
        wait(recorder, random, local_id, length);
    }
    let Some(dialogue) = recorder.find(local_id) else { return };
    let total = random.within(239, 241);
    let beside = dialogue.waiting.len() + if random.chance(60) { rejects_length(&dialogue) } else { 0 };
    let request = sized_request(random, dialogue.state, total.saturating_sub(beside));
    let reply = recorder.request(SERVICE, local_id, request);
    follow(recorder, random, &reply);
    recorder.request(SERVICE, local_id, Request::Continue(Given::NONE));
    recorder.request(SERVICE, local_id, Request::Prearranged);
}

fn rejects_length(dialogue: &Dialogue) -> usize {
    dialogue.rejects.iter().map(|reject| writing::reject(reject.id, reject.problem).len()).sum()
}

/// A request whose portion has this length, now and then with a stray octet too; an abort's portion is measured alone.
fn sized_request(random: &mut Random, state: State, length: usize) -> Request {
    if random.chance(12) {
        return Request::Abort { portion: giving::abort_of_length(random.within(239, 241)) };
    }
    let stray = random.chance(15);
    let mut of = |pdu| {
        let mut given = giving::of_length(random, pdu, length);
        given.information.extend(stray.then_some(0));
        given
    };
    let (response, request, unidirectional) = (of(Pdu::Response), of(Pdu::Request), of(Pdu::Unidirectional));
    match state {
        State::Open => random.pick(&[Request::Begin(request), Request::Unidirectional(unidirectional)]),
        _ => random.pick(&[Request::Continue(response.clone()), Request::End(response)]),
    }
}

/// A message of any kind with a portion of any kind; what it opened or left open is answered.
fn received(recorder: &mut Recorder, random: &mut Random) {
    let Some(local_id) = any_dialogue(recorder, random) else { return };
    let message = any_message(random, local_id);
    let octets = if random.chance(10) { message.damaged(random, 1) } else { message.encode() };
    let reply = recorder.receive(SERVICE, octets.clone());
    for _ in 0..random.within(1, 3) {
        recorder.read_portion(random, &octets);
    }
    if let Some(row) = reply.rows.first() {
        let given = giving::any(random);
        let answer = random.pick(&[Request::Continue(given.clone()), Request::End(given)]);
        let reply = recorder.request(SERVICE, row.local_id, answer);
        follow(recorder, random, &reply);
        recorder.request(SERVICE, row.local_id, Request::Prearranged);
    }
    recorder.request(SERVICE, local_id, Request::Prearranged);
}

fn any_message(random: &mut Random, local_id: u32) -> Tree {
    let ours = Some(local_id.to_be_bytes().to_vec());
    let peer = Some(samples::peer_id(random));
    let (kind, originating, destination) = match random.below(8) {
        0..=2 => (0x62, peer, None),
        3 | 4 => (0x65, peer, ours),
        5 => (0x64, None, ours),
        6 => (0x67, None, ours),
        _ => (0x61, None, None),
    };
    let component = Tree::Raw(vec![0xA1, 6, 2, 1, 5, 2, 1, 0x3B]);
    let components = (kind == 0x61 || kind != 0x67 && random.chance(40)).then(|| vec![component]);
    let portion = Some(pdus::any(random));
    samples::message(random, Parts { kind, originating, destination, portion, components })
}

/// A few portions, each with octets of any kind around it.
fn read_alone(recorder: &mut Recorder, random: &mut Random) {
    for _ in 0..random.within(2, 8) {
        let (before, after) = (random.below(5), random.below(4));
        let portion = pdus::any(random).encode();
        let octets = [random.octets(before), portion, random.octets(after)].concat();
        recorder.read_portion(random, &octets);
    }
}
