//! A lock whose state is bytes, by the table of docs/STATES.md: which bytes stand for
//! one, the calls on them, and the library's C functions for it.

/// What the reference gives.
pub mod expected {
    use crate::acquisition::{Gathered, Lock, LockReceiver, Reading, DECISION_BITS, WINDOW};
    use crate::answer::Answer;
    use crate::bridge::expected as blocks;
    use crate::inner_code::RATES;
    use crate::losses::Block;
    use crate::receiver::FILLING;
    use crate::runs::{full, soft_pairs, Runs};
    use crate::states::{place_of, Row};
    use crate::{GROUP_LENGTH, PACKET_LENGTH};

    pub const STATE_LENGTH: usize = 15_121;

    /// The fields: name, offset, bytes.
    pub const LAYOUT: [Row; 18] = [
        ("receiver", 0, 2322),
        ("pending", 2322, 1632),
        ("pairs", 3954, 1632),
        ("bits", 5586, 8168),
        ("held", 13754, 2),
        ("count", 13756, 2),
        ("gathered", 13758, 2),
        ("came", 13760, 8),
        ("first", 13768, 8),
        ("used", 13776, 8),
        ("searched", 13784, 1),
        ("turned", 13785, 1),
        ("rate", 13786, 1),
        ("memory", 13787, 1),
        ("skipped", 13788, 8),
        ("end", 13796, 8),
        ("certain", 13804, 1),
        ("packets", 13805, 1316),
    ];

    /// The bytes of packets and of text that a call may write.
    pub const PACKETS: usize = 8 * PACKET_LENGTH;
    pub const TEXT: usize = 2048;
    /// So many points can be counted.
    pub const MOST_CAME: u64 = 1 << 60;
    /// What stands for no number of packets that wait: none has to.
    const SURE: u8 = 8;

    fn field<'a>(state: &'a [u8], name: &str) -> &'a [u8] {
        &state[place_of(&LAYOUT, name)]
    }

    /// The lowest byte comes first.
    fn number(state: &[u8], name: &str) -> u64 {
        field(state, name).iter().rev().fold(0, |sum, byte| sum << 8 | u64::from(*byte))
    }

    /// A number and two flags in one byte: three bits, the flags, and the number's other bits.
    fn flags(state: &[u8], name: &str) -> (u8, bool, bool) {
        let byte = field(state, name)[0];
        (byte % 8 + byte / 32 * 8, byte / 8 % 2 == 1, byte / 16 % 2 == 1)
    }

    fn flagged((number, low, high): (u8, bool, bool)) -> [u8; 1] {
        [number % 8 + 8 * u8::from(low) + 16 * u8::from(high) + number / 8 * 32]
    }

    /// The cells up to a count, where each is below a limit and those behind them are zero.
    fn filled(cells: &[u8], count: u64, limit: u8) -> Option<Vec<u8>> {
        if count > cells.len() as u64 {
            return None;
        }
        let (held, behind) = cells.split_at(count as usize);
        (held.iter().all(|cell| *cell < limit) && behind.iter().all(|cell| *cell == 0)).then(|| held.to_vec())
    }

    /// The reading of the points that came: its runs, its bits and its counts.
    fn read_reading(state: &[u8], held: u64, came: u64) -> Option<Reading> {
        let (turn, gave, inverted) = flags(state, "turned");
        let (rate, memory) = (field(state, "rate")[0], field(state, "memory")[0]);
        let (count, gathered) = (number(state, "count"), number(state, "gathered"));
        let (first, used) = (number(state, "first"), number(state, "used"));
        if rate >= RATES || memory > 63 || turn > 7 || count >= full(rate) as u64 || gathered >= DECISION_BITS as u64 || first > came {
            return None;
        }
        if u128::from(used) + u128::from(gathered + 2 * (held + count)) > u128::from(2 * (came - first) + 16) {
            return None;
        }
        let runs = Runs { rate, memory, pairs: filled(field(state, "pairs"), count, 81)? };
        let gathered = Gathered { bits: filled(field(state, "bits"), gathered, 2)?, used, gave, inverted };
        Some(Reading { turn, runs, gathered, first })
    }

    /// No reading: every byte of it is zero.
    fn idle(state: &[u8]) -> bool {
        ["pairs", "bits", "count", "gathered", "first", "used", "turned", "rate", "memory"].iter().all(|name| field(state, name).iter().all(|byte| *byte == 0))
    }

    /// How many packets can wait before the next block: from place 1 on before a place that is known, and each is that of a block behind the eleven that
    /// fill the delays.
    pub fn most_waiting(receiver: &LockReceiver) -> usize {
        let behind = receiver.receiver.counts.taken.saturating_sub(FILLING);
        receiver.receiver.place.map_or(0, |place| (place + 7) % GROUP_LENGTH).min(behind as usize)
    }

    fn read_receiver(state: &[u8], code: u8) -> Option<LockReceiver> {
        let (receiver, positions) = blocks::read(field(state, "receiver"))?;
        let mut receiver = LockReceiver { receiver, positions, sure: code == SURE, waiting: Vec::new() };
        let waiting = if receiver.sure { 0 } else { code as usize };
        if waiting > most_waiting(&receiver) {
            return None;
        }
        let (packets, behind) = field(state, "packets").split_at(waiting * PACKET_LENGTH);
        let next = receiver.receiver.place.unwrap_or(0) + GROUP_LENGTH;
        for (k, packet) in packets.chunks(PACKET_LENGTH).enumerate() {
            receiver.waiting.push(Block { answer: Answer::Done, place: (next - waiting + k) % GROUP_LENGTH, packet: packet.to_vec() });
        }
        behind.iter().all(|byte| *byte == 0).then_some(receiver)
    }

    /// The lock that bytes stand for.
    pub fn read(state: &[u8]) -> Option<Lock> {
        let (rate, mirrored, reads) = flags(state, "searched");
        let (held, came) = (number(state, "held"), number(state, "came"));
        if rate > RATES || came >= MOST_CAME || held > came {
            return None;
        }
        let mut lock = Lock { mirrored, came, ..Lock::fresh(Some(rate).filter(|rate| *rate < RATES)) };
        lock.pending = filled(field(state, "pending"), held, 81)?;
        if reads {
            lock.reading = Some(read_reading(state, held, came)?);
        } else if held == WINDOW as u64 || !idle(state) {
            return None;
        }
        let (code, found, lasts) = flags(state, "certain");
        lock.teller.receiver = read_receiver(state, code)?;
        (lock.teller.found, lock.teller.lasts) = (found, lasts);
        (lock.teller.skipped, lock.teller.end) = (number(state, "skipped"), number(state, "end"));
        Some(lock)
    }

    pub fn write(lock: &Lock, state: &mut [u8]) {
        state.fill(0);
        let mut put = |name: &str, bytes: &[u8]| state[place_of(&LAYOUT, name)][..bytes.len()].copy_from_slice(bytes);
        put("pending", &lock.pending);
        put("held", &(lock.pending.len() as u16).to_le_bytes());
        put("came", &lock.came.to_le_bytes());
        put("searched", &flagged((lock.rate.unwrap_or(RATES), lock.mirrored, lock.reading.is_some())));
        if let Some(Reading { turn, runs, gathered, first }) = &lock.reading {
            put("pairs", &runs.pairs);
            put("count", &(runs.pairs.len() as u16).to_le_bytes());
            put("rate", &[runs.rate]);
            put("memory", &[runs.memory]);
            put("bits", &gathered.bits);
            put("gathered", &(gathered.bits.len() as u16).to_le_bytes());
            put("used", &gathered.used.to_le_bytes());
            put("turned", &flagged((*turn, gathered.gave, gathered.inverted)));
            put("first", &first.to_le_bytes());
        }
        let (teller, receiver) = (&lock.teller, &lock.teller.receiver);
        put("skipped", &teller.skipped.to_le_bytes());
        put("end", &teller.end.to_le_bytes());
        let code = if receiver.sure { SURE } else { receiver.waiting.len() as u8 };
        put("certain", &flagged((code, teller.found, teller.lasts)));
        put("packets", &receiver.waiting.iter().flat_map(|block| &block.packet).copied().collect::<Vec<u8>>());
        blocks::write(&receiver.receiver, &receiver.positions, &mut state[place_of(&LAYOUT, "receiver")]);
    }

    pub fn fresh(state: &mut [u8], rate: u8) -> u8 {
        if state.len() != STATE_LENGTH {
            return Answer::StateLength.number();
        }
        if rate > RATES {
            return Answer::UnknownRate.number();
        }
        write(&Lock::fresh(Some(rate).filter(|rate| *rate < RATES)), state);
        Answer::Done.number()
    }

    fn lock_of(state: &[u8]) -> Result<Lock, Answer> {
        if state.len() != STATE_LENGTH {
            return Err(Answer::StateLength);
        }
        read(state).ok_or(Answer::StateRange)
    }

    /// What a call is lent beside the state and the points.
    pub struct Rooms<'a> {
        pub packets: &'a mut [u8],
        pub text: &'a mut [u8],
        pub counts: &'a mut [u64],
        pub answer: &'a mut [u8],
    }

    impl Rooms<'_> {
        fn enough(&self) -> Result<(), Answer> {
            let enough = self.packets.len() >= PACKETS && self.text.len() >= TEXT && self.counts.len() >= 2;
            enough.then_some(()).ok_or(Answer::ShortOutput)
        }

        /// A call that gives a lock after it and a number, or a refusal: where no byte is lent for the answer, nothing is done.
        fn answered(self, state: &mut [u8], called: impl FnOnce(&Self, &[u8]) -> Result<(Lock, u64), Answer>) -> u64 {
            if self.answer.is_empty() {
                return 0;
            }
            let (lock, number) = match called(&self, state) {
                Ok(done) => done,
                Err(refusal) => {
                    self.answer[0] = refusal.number();
                    return 0;
                }
            };
            write(&lock, state);
            let (packets, text) = (&lock.teller.packets, lock.teller.text.as_bytes());
            self.packets[..packets.len()].copy_from_slice(packets);
            self.text[..text.len()].copy_from_slice(text);
            self.counts[..2].copy_from_slice(&[packets.len() as u64, text.len() as u64]);
            self.answer[0] = Answer::Done.number();
            number
        }
    }

    /// A step on points: how many it takes.
    pub fn feed(state: &mut [u8], i: &[f32], q: &[f32], lost: &[u8], rooms: Rooms) -> u64 {
        rooms.answered(state, |rooms, state| {
            let mut lock = lock_of(state)?;
            if i.len() != q.len() || i.len() != lost.len() || lost.iter().any(|mark| *mark > 1) {
                return Err(Answer::SoftLists);
            }
            rooms.enough()?;
            if lock.came >= MOST_CAME - WINDOW as u64 {
                return Err(Answer::Full);
            }
            let taken = lock.feed(&soft_pairs(i, q, lost));
            Ok((lock, taken as u64))
        })
    }

    /// A step of the end: 1 where it was the last.
    pub fn end(state: &mut [u8], rest: u64, rooms: Rooms) -> u64 {
        rooms.answered(state, |rooms, state| {
            let mut lock = lock_of(state)?;
            rooms.enough()?;
            let over = lock.end(rest);
            Ok((lock, u64::from(over)))
        })
    }
}

/// The functions of libdvbs.a, with slices.
#[cfg(exports_linked)]
pub mod library {
    mod c {
        extern "C" {
            pub fn dvbs_lock_fresh(state: *mut u8, state_len: usize, rate: u8) -> u8;
            pub fn dvbs_lock_feed(
                state: *mut u8,
                state_len: usize,
                i: *const f32,
                i_len: usize,
                q: *const f32,
                q_len: usize,
                lost: *const u8,
                lost_len: usize,
                packets: *mut u8,
                packets_len: usize,
                text: *mut u8,
                text_len: usize,
                counts: *mut u64,
                counts_len: usize,
                answer: *mut u8,
                answer_len: usize,
            ) -> u64;
            pub fn dvbs_lock_end(
                state: *mut u8,
                state_len: usize,
                rest: u64,
                packets: *mut u8,
                packets_len: usize,
                text: *mut u8,
                text_len: usize,
                counts: *mut u64,
                counts_len: usize,
                answer: *mut u8,
                answer_len: usize,
            ) -> u64;
        }
    }

    use super::expected::Rooms;

    // Each pointer comes from a slice and is passed with that slice's length.

    pub fn fresh(state: &mut [u8], rate: u8) -> u8 {
        unsafe { c::dvbs_lock_fresh(state.as_mut_ptr(), state.len(), rate) }
    }

    pub fn feed(state: &mut [u8], i: &[f32], q: &[f32], lost: &[u8], rooms: Rooms) -> u64 {
        unsafe {
            c::dvbs_lock_feed(
                state.as_mut_ptr(),
                state.len(),
                i.as_ptr(),
                i.len(),
                q.as_ptr(),
                q.len(),
                lost.as_ptr(),
                lost.len(),
                rooms.packets.as_mut_ptr(),
                rooms.packets.len(),
                rooms.text.as_mut_ptr(),
                rooms.text.len(),
                rooms.counts.as_mut_ptr(),
                rooms.counts.len(),
                rooms.answer.as_mut_ptr(),
                rooms.answer.len(),
            )
        }
    }

    pub fn end(state: &mut [u8], rest: u64, rooms: Rooms) -> u64 {
        unsafe {
            c::dvbs_lock_end(
                state.as_mut_ptr(),
                state.len(),
                rest,
                rooms.packets.as_mut_ptr(),
                rooms.packets.len(),
                rooms.text.as_mut_ptr(),
                rooms.text.len(),
                rooms.counts.as_mut_ptr(),
                rooms.counts.len(),
                rooms.answer.as_mut_ptr(),
                rooms.answer.len(),
            )
        }
    }
}

/// Without the library, the reference in its place.
#[cfg(not(exports_linked))]
pub mod library {
    pub use super::expected::{end, feed, fresh};
}

#[cfg(test)]
mod tests {
    use super::expected::{end, feed, fresh, read, write, Rooms, LAYOUT, PACKETS, STATE_LENGTH, TEXT};
    use crate::acquisition::{lock, Told};
    use crate::channel::{demodulated, sigma, to_bytes, Channel, Demodulator, Point, Slip};
    use crate::numbered::{packets, symbols};
    use crate::states::tables::{fills, owned, rows_after, specified};
    use crate::xorshift::Xorshift;

    #[test]
    fn document_header_and_specification_have_the_same_table() {
        assert!(fills(&LAYOUT, STATE_LENGTH));
        assert_eq!(rows_after("## The state of a lock", include_str!("../../docs/STATES.md")), owned(&LAYOUT));
        assert_eq!(rows_after("The state of a lock", include_str!("../../include/dvbs.h")), owned(&LAYOUT));
        let rows = [specified(include_str!("../../crates/acquisition_state/specs/State.antt")), specified(include_str!("../../crates/lock_state/specs/State.antt"))];
        assert_eq!(rows.concat(), owned(&LAYOUT[1..]));
    }

    #[test]
    fn fresh_states_stand() {
        let mut state = vec![0xA5; STATE_LENGTH];
        assert!((0..6).all(|rate| fresh(&mut state, rate) == 0 && read(&state).is_some()));
        assert_eq!(fresh(&mut state, 6), 6);
    }

    /// Calls feed with points, or end where there are none: the number that is returned, the packets and the text. What is behind them is as it was.
    fn call(state: &mut [u8], points: &[Point]) -> (usize, Vec<u8>, String) {
        let (i, q): (Vec<f32>, Vec<f32>) = points.iter().copied().unzip();
        let (mut packets, mut text, mut counts, mut answer) = (vec![0xA5; PACKETS], vec![0xA5; TEXT + 1], [7; 3], [7; 2]);
        let rooms = Rooms { packets: &mut packets, text: &mut text, counts: &mut counts, answer: &mut answer };
        let number = if points.is_empty() { end(state, 3, rooms) } else { feed(state, &i, &q, &vec![0; i.len()], rooms) };
        assert_eq!((answer, counts[2]), ([0, 7], 7));
        let (behind, told) = (packets.split_off(counts[0] as usize), text.split_off(counts[1] as usize));
        assert!(behind.iter().chain(&told).all(|byte| *byte == 0xA5));
        (number as usize, packets, String::from_utf8(text).unwrap())
    }

    /// Through the bytes of a state, call by call, a stream comes to what it comes to as a whole; and what is read of them is written again.
    #[test]
    fn calls_come_to_the_whole() {
        let mut r = Xorshift::new(4);
        for (rate, turn, slip) in [(0, 6, Slip::LeftOut(1632)), (2, 2, Slip::Turned(1)), (3, 5, Slip::LeftOut(700))] {
            let mut channel = Channel::new(rate, sigma(rate as u8, 7.0), 0.0, None);
            let mut demodulator = Demodulator::new(5_000, turn, vec![(45_000, slip)]);
            let all = demodulated(&symbols(rate as u8, &packets(rate, 60)), &mut channel, &mut demodulator);
            let mut state = vec![0; STATE_LENGTH];
            fresh(&mut state, rate as u8);
            let (mut given, mut told) = (Vec::new(), String::new());
            let (mut at, mut over) = (0, false);
            while !over {
                let until = (at + 1 + r.below(2_500)).min(all.len());
                let (number, packets, text) = call(&mut state, &all[at..until]);
                if at < all.len() {
                    at += number;
                } else {
                    over = number == 1;
                }
                given.extend(packets);
                told += &text;
                let mut again = vec![0xA5; STATE_LENGTH];
                write(&read(&state).expect("it stands for a lock"), &mut again);
                assert!(again == state);
            }
            let bytes: Vec<u8> = all.into_iter().flat_map(to_bytes).chain([0; 3]).collect();
            assert_eq!(Told { packets: given, text: told, status: 0 }, lock(Some(rate as u8), &bytes));
        }
    }

    /// How many points the first steps take, of a stream at 1/2 that begins with a pattern: a window; none, while the lead of 6 and 1,626 that are pending make a run
    /// of 1,632; none, while 101 symbols and the last 6 are held; then as many as complete a run.
    #[test]
    fn what_the_first_steps_take() {
        let sent = symbols(0, &packets(1, 20));
        let all: Vec<Point> = sent.into_iter().map(crate::channel::sent).skip(13 * 1632).collect();
        let mut state = vec![0; STATE_LENGTH];
        fresh(&mut state, 5);
        assert_eq!(call(&mut state, &all[..1000]).0, 1000);
        assert_eq!(call(&mut state, &all[1000..5000]).0, 632);
        let counts = |state: &[u8]| read(state).map(|lock| (lock.came, lock.pending.len(), lock.reading.map(|reading| (reading.runs.pairs.len(), reading.gathered.bits.len()))));
        assert_eq!(counts(&state), Some((1632, 1632, Some((6, 0)))));
        assert_eq!(call(&mut state, &all[1632..1633]).0, 0);
        assert_eq!(counts(&state), Some((1632, 6, Some((101, 1531)))));
        assert_eq!(call(&mut state, &all[1632..1633]).0, 0);
        assert_eq!(counts(&state), Some((1632, 0, Some((107, 1531)))));
        assert_eq!(call(&mut state, &all[1632..5000]).0, 1525);
        assert_eq!(counts(&state), Some((3157, 0, Some((101, 3062)))));
    }

    /// Behind the last step of the end the closing lines are told once more.
    #[test]
    fn an_end_without_a_lock() {
        let mut state = vec![0; STATE_LENGTH];
        fresh(&mut state, 4);
        assert_eq!(call(&mut state, &[(0.5, 0.5); 5]).0, 5);
        let before = state.clone();
        for _ in 0..2 {
            assert_eq!(call(&mut state, &[]), (1, vec![], "nothing symbol=5 skipped=5 bytes=3\n".to_string()));
            assert!(state == before);
        }
    }
}
