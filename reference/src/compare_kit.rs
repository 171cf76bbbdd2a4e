//! The engine against the reference on kits: every answer, all words of every state and list, and counts must be the same.

use crate::compare::{agree, damage, part, words_before, Part, MINUS_WORDS, NARROW};
use crate::engine::{self, COUNT_WORDS, FACTOR_WORDS, KIT_STATE_WORDS, KIT_WORDS, TOO_SHORT, UNTOUCHED};
use crate::factor::{greatest, least, set_up, Factor};
use crate::figures::{example_kit, row_of};
use crate::kit::{self, is_clean, most_rounds, told, Kit, Plain, Told, PLACES};
use crate::random::{self, given, Random, KNOWN};
use crate::suspects;
use crate::sweep::Counts;
use crate::words::words;
use std::collections::{BTreeMap, BTreeSet};

pub fn parts() -> Vec<Part> {
    vec![
        part(
            "lists of kit calls from a new state, against the plain kit sweep and the separate sweeps too",
            lists_of_calls,
        ),
        part("kits at 24 bits to their finish, in one call and in many, against rows of all suspects", whole_kits),
        part("kit calls on states that nobody reached", any_states),
        part("damaged factors in kits, counted and past the number", damaged),
        part("factors of a kit that are alike, and such as are nearly", alike),
        part("refusals of kits, states and kit calls, any of them at once", refusals_at_once),
        part("kits and states of kits in lists that are too short", short_lists),
        part("W6's figure", figure),
    ]
}

/// The number and the counted factors of a kit, and where its sweep stands, to be shown.
fn shown(words: &[u64]) -> String {
    let counted = words.first().map_or(0, |&number| number.min(PLACES as u64)) as usize;
    let factors = words.iter().skip(1).take(counted * FACTOR_WORDS).collect::<Vec<_>>();
    format!("{:X?} {factors:X?} at {:X?}", words.first(), words.get(KIT_WORDS..))
}

/// Stops where words are not those that are due.
fn same(there: &[u64], due: &[u64], what: &str) {
    if there != due {
        let word = there.iter().zip(due).position(|(there, due)| there != due);
        panic!("{what}: word {word:?} of {} is not that of {}", shown(there), shown(due));
    }
}

fn both_form(kit: &[u64]) -> Result<Kit, u32> {
    let answer = Kit::form(kit);
    agree!(engine::form_kit(kit), answer.as_ref().err().copied().unwrap_or(0), "forming the kit {}", shown(kit));
    answer
}

fn both_new(kit: &[u64]) -> Result<Vec<u64>, u32> {
    let (begun, due) = (engine::new_kit_sweep(kit), kit::new_state(kit));
    if let (Ok(begun), Ok(due)) = (&begun, &due) {
        same(begun, due, "a new kit sweep");
    }
    let refusal = |answer: &Result<Vec<u64>, u32>| answer.as_ref().err().copied();
    agree!(refusal(&begun), refusal(&due), "a new sweep of the kit {}", shown(kit));
    begun
}

fn both_told(state: &[u64], entries: u64) -> Result<Told, u32> {
    let answer = told(state, entries);
    let due = answer.map_or_else(|refusal| refusal, Told::number);
    agree!(engine::kit_clean(state, entries), due, "whether a kit is clean by {entries:X} of {}", shown(state));
    answer
}

/// One call by both, on the same words: answer, counts, all words of the state and the whole list.
fn both_call(state: &mut [u64], cap: u64, list: &mut [u32], free: u64) -> Result<Counts, u32> {
    let (before, list_before) = (state.to_vec(), list.to_vec());
    let (mut due, mut due_list) = (before.clone(), list_before.clone());
    let answer = kit::call(&mut due, cap, &mut due_list, free);
    let there = engine::kit_sweep(state, cap, list, free as usize);
    let what =
        || format!("a call with cap {cap:X} and {} words from {free:X} on the kit {}", due_list.len(), shown(&before));
    agree!(there, answer, "{}", what());
    if state != due || list != due_list {
        same(state, &due, &what());
        panic!("the list after {}: {list:X?}, and not {due_list:X?}", what());
    }
    match answer {
        Ok(counts) => {
            let most = most_rounds(counts.trials, before[KIT_WORDS], state[KIT_WORDS]);
            assert!(counts.rounds <= most, "{}", what());
        }
        Err(_) => assert!(state == before && list == list_before, "{}", what()),
    }
    answer
}

/// Everything that is asked about kits, of the same words, which are more than a kit's: how the call was answered.
fn by_every_function(random: &mut Random, state: &mut [u64], call: (u64, usize, u64)) -> Result<Counts, u32> {
    let entries = random.one_of(&[0, 0, 1, 2, 1 << 32, 1 << 63, u64::MAX]);
    let _ = both_form(state);
    let _ = both_new(state);
    let _ = both_told(state, entries);
    let (cap, length, free) = call;
    let mut list = words_before(random, length);
    both_call(state, cap, &mut list, free)
}

/// Place, next significand and finished mark.
fn position(state: &[u64]) -> [u64; 3] {
    [0, 1, 2].map(|word| state[KIT_WORDS + word])
}

/// Where a place's words begin.
fn at(place: usize) -> usize {
    1 + place * FACTOR_WORDS
}

/// How many factors: few, or as many as there is room for, or any number.
fn any_number(random: &mut Random) -> usize {
    match random.below(8) {
        0 => PLACES,
        1 => PLACES - 1,
        2 => random.from_to(1, PLACES as u64) as usize,
        _ => random.from_to(1, 9) as usize,
    }
}

/// What stands past the number: zeros, any words, the factors again, or these damaged.
fn fill_past(random: &mut Random, words: &mut [u64], number: usize) {
    let kind = random.below(5);
    for place in number..PLACES {
        let mut there: [u64; FACTOR_WORDS] = match kind {
            0 => [0; FACTOR_WORDS],
            1 => [(); FACTOR_WORDS].map(|_| random.any_size()),
            2 => [u64::MAX; FACTOR_WORDS],
            _ => {
                let other = random.below(number as u64) as usize;
                words[at(other)..at(other + 1)].try_into().expect("a factor's words")
            }
        };
        if kind == 4 {
            damage(random, &mut there);
        }
        words[at(place)..at(place + 1)].copy_from_slice(&there);
    }
}

/// The words of a kit, a sign being any word that tells it, with anything past the number.
fn words_of(random: &mut Random, kit: &Kit) -> Vec<u64> {
    let mut words = kit.words();
    for (place, factor) in kit.factors.iter().enumerate() {
        if factor.minus {
            words[at(place)] = random.one_of(&MINUS_WORDS);
        }
    }
    fill_past(random, &mut words, kit.factors.len());
    words
}

/// A cap, a list's length and a first free place, now and then such that the call is refused.
fn call_of(random: &mut Random) -> (u64, usize, u64) {
    let cap = match random.below(10) {
        0 => 0,
        1 => random.one_of(&[u64::MAX, 1 << 32, 1 << 63]),
        2 => random.any_size(),
        3 => random.from_to(1, 100),
        _ => random.from_to(1, 6),
    };
    let length = random.one_of(&[0, 1, 2, 2, 3, 3, 4, 5, 8, 9, 64, 401]) as u64;
    let free = match random.below(8) {
        0 => {
            let any = random.any_size();
            random.one_of(&[u64::MAX, u64::MAX - 1, 1 << 32, 1 << 63, any])
        }
        1 => random.below(10),
        2 => (length + random.below(4)).saturating_sub(3),
        _ => random.below(length.max(2) - 1),
    };
    (cap, length as usize, free)
}

/// The engine's own sweeps of the factors, one by one: what they list, as entries, and their trials and rounds.
fn separately(kit: &Kit) -> (Vec<u32>, Counts) {
    let (mut entries, mut sum) = (Vec::new(), Counts { trials: 0, rounds: 0, place: 0 });
    let mut list = vec![0; 1000];
    for (place, factor) in kit.factors.iter().enumerate() {
        let range = (least(factor.bits), greatest(factor.bits));
        let mut state = engine::new_sweep(&words(factor), range.0, range.1).expect("a good range");
        while state[13] == 0 {
            let counts = engine::sweep(&mut state, u64::MAX, &mut list, 0).expect("an accepted call");
            entries.extend(list[..counts.place as usize].iter().flat_map(|&word| [place as u32, word]));
            (sum.trials, sum.rounds) = (sum.trials + counts.trials, sum.rounds + counts.rounds);
        }
    }
    sum.place = entries.len() as u64;
    (entries, sum)
}

/// Calls from a new state to the finish and one more, beside the plain kit sweep: in all they list, try and search what the separate sweeps
/// do, and finish with the last suspect at the latest. How many answers were compared, and how many entries listed.
fn to_the_finish(random: &mut Random, kit: &Kit, row_of: impl Fn(&Factor) -> Vec<u64>) -> (u64, u64) {
    let words = words_of(random, kit);
    assert_eq!(both_form(&words).as_ref(), Ok(kit));
    let mut state = both_new(&words).expect("a good kit");
    let mut plain = Plain::new(kit, row_of);
    let (mut joined, mut sum) = (Vec::new(), Counts { trials: 0, rounds: 0, place: 0 });
    let (mut list, mut answers, mut accepted) = (Vec::new(), 2, 0);
    loop {
        let (mut cap, mut length, free) = call_of(random);
        // A kit with many suspects is not to take too many calls.
        if accepted > 30 {
            (cap, length) = (cap.max(200), length.max(64));
        }
        // The same list again, or another.
        if random.below(2) == 0 || list.len() != length {
            list = words_before(random, length);
        }
        let mut whole = list.clone();
        let answer = both_call(&mut state, cap, &mut list, free);
        let due = plain.call(cap, length as u64, free);
        agree!(position(&state), plain.position(), "where the plain kit sweep stands of {kit:X?}");
        same(&state[..KIT_WORDS], &words, "the kit in a state");
        match (answer, due) {
            (Ok(counts), Ok(due)) => {
                agree!((counts.trials, counts.place), (due.trials, due.place), "a plain kit call on {kit:X?}");
                whole[free as usize..due.place as usize].copy_from_slice(&due.words);
                joined.extend(due.words);
                (sum.trials, sum.rounds) = (sum.trials + counts.trials, sum.rounds + counts.rounds);
                accepted += 1;
            }
            (answer, due) => {
                agree!(answer.err(), due.err(), "a plain kit call on {kit:X?}");
                assert!(answer.is_err());
            }
        }
        if list != whole {
            panic!("the plain kit sweep's words of {kit:X?}");
        }
        let entries = joined.len() as u64 / 2;
        let due = match state[KIT_WORDS + 2] {
            0 => Told::Unfinished,
            _ if entries == 0 => Told::Clean,
            _ => Told::NotClean,
        };
        agree!(both_told(&state, entries), Ok(due), "what is told of {kit:X?}");
        answers += 2;
        if answer == Err(33) {
            break;
        }
    }
    assert!(accepted <= plain.row().len().max(1), "{accepted} calls on {kit:X?}");
    sum.place = joined.len() as u64;
    let (entries, due) = separately(kit);
    agree!((joined.len(), sum), (entries.len(), due), "the separate sweeps of {kit:X?}");
    assert!(joined == entries, "the separate sweeps' words of {kit:X?}");
    // In one call, with room for an entry more and one place.
    let mut state = engine::new_kit_sweep(&words).expect("a good kit");
    let mut list = vec![7; entries.len() + 3];
    agree!(both_call(&mut state, u64::MAX, &mut list, 0), Ok(due), "one call on {kit:X?}");
    assert!(list[..entries.len()] == entries && list[entries.len()..] == [7; 3]);
    (answers + 1 + kit.factors.len() as u64, entries.len() as u64 / 2)
}

fn lists_of_calls(random: &mut Random) -> u64 {
    let (mut answers, mut clean) = (0, [0; 2]);
    for _ in 0..6000 {
        let number = any_number(random);
        let kit = random::kit(random, number);
        let (compared, entries) = to_the_finish(random, &kit, row_of);
        answers += compared;
        if kit.factors.iter().all(|factor| factor.bits <= 14) {
            agree!(entries == 0, is_clean(&kit), "whether {kit:X?} is clean");
            clean[(entries == 0) as usize] += 1;
        }
    }
    assert!(clean.iter().all(|&kits| kits > 100), "{clean:?}");
    answers
}

/// Known factors and others, some of which fail, of both signs and of any scale.
fn whole_kits(random: &mut Random) -> u64 {
    let mut sizes: Vec<(u64, u64)> = KNOWN[..4].iter().map(|&(_, _, lower, upper)| (lower, upper)).collect();
    while sizes.len() < 10 {
        let kind = random.one_of(&[5, 6, 7]);
        let Ok(factor) = given(random, 24, kind).set_up() else { continue };
        // Most of those that are swept without an entry are left out.
        if !separately(&Kit { factors: vec![factor] }).0.is_empty() || random.below(8) == 0 {
            sizes.push((factor.lower, factor.upper));
        }
    }
    let row = |&(lower, upper): &(u64, u64)| {
        let factor = set_up(false, 24, 0, lower, upper).expect("an accepted factor");
        ((lower, upper), suspects::row(&factor, least(24), greatest(24)))
    };
    let rows: BTreeMap<(u64, u64), Vec<u64>> = sizes.iter().map(row).collect();
    let (mut answers, mut listed) = (0, 0);
    for _ in 0..700 {
        let number = any_number(random);
        let mut factors: Vec<Factor> = Vec::new();
        while factors.len() < number {
            let (lower, upper) = random.one_of(&sizes);
            let (minus, scale) = (random.below(4) == 0, random.below(201) as i32 - 100);
            let factor = set_up(minus, 24, scale, lower, upper).expect("an accepted factor");
            if !factors.contains(&factor) {
                factors.push(factor);
            }
        }
        let kit = Kit { factors };
        let (compared, entries) = to_the_finish(random, &kit, |factor| rows[&(factor.lower, factor.upper)].clone());
        (answers, listed) = (answers + compared, listed + entries);
    }
    assert!(listed > 1000, "{listed}");
    // One of many suspects, all of them open, between others.
    let [(_, scale, lower, upper), (_, _, other_lower, other_upper)] = [KNOWN[4], KNOWN[0]];
    let many = set_up(false, 24, scale, lower, upper).expect("an accepted factor");
    let few = set_up(true, 24, scale, other_lower, other_upper).expect("an accepted factor");
    let kit = Kit { factors: vec![few, many, few.opposite(), many.opposite()] };
    let row = suspects::row(&many, least(24), greatest(24));
    let row_of =
        |factor: &Factor| if factor.lower == lower { row.clone() } else { rows[&(other_lower, other_upper)].clone() };
    let (compared, entries) = to_the_finish(random, &kit, row_of);
    assert_eq!(entries, 2 * 66_052);
    answers + compared
}

/// Place, next significand and finished mark at will, most of them such that a call is accepted.
fn any_position(random: &mut Random, kit: &Kit) -> [u64; 3] {
    let place = random.below(kit.factors.len() as u64);
    let factor = kit.factors[place as usize];
    let (least, greatest) = (least(factor.bits), greatest(factor.bits));
    let next = match random.below(6) {
        0 => random.one_of(&[least - 1, least, greatest, greatest + 1, 0, u64::MAX, 1 << 32 | least]),
        1 => 1 << random.from_to(3, 24),
        _ => random.from_to(least, greatest),
    };
    let place = match random.below(8) {
        0 => random.one_of(&[kit.factors.len() as u64, PLACES as u64, u64::MAX, 1 << 32, 1 << 32 | place]),
        _ => place,
    };
    [place, next, random.one_of(&[0, 0, 0, 0, 0, 0, 0, 1, 2, 1 << 32, u64::MAX])]
}

/// A call on such a state; and the engine's own answers where something else stands past the number, which are the same.
fn any_states(random: &mut Random) -> u64 {
    let (mut answers, mut met) = (0, BTreeSet::new());
    for _ in 0..10_000 {
        let number = any_number(random);
        let kit = random::kit(random, number);
        let mut state = words_of(random, &kit);
        state.extend([0; 3]);
        for i in 0..16 {
            state[KIT_WORDS..KIT_STATE_WORDS].copy_from_slice(&any_position(random, &kit));
            let (cap, length, free) = call_of(random);
            let (mut list, mut other) = (words_before(random, length), state.clone());
            let mut other_list = list.clone();
            let answer = both_call(&mut state, cap, &mut list, free);
            met.insert(answer.map(|_| ()));
            answers += 1;
            if i == 0 {
                fill_past(random, &mut other, number);
                let past = at(number)..KIT_WORDS;
                let there = other[past.clone()].to_vec();
                agree!(engine::kit_sweep(&mut other, cap, &mut other_list, free as usize), answer, "{}", shown(&state));
                same(&other[past.clone()], &there, "past the number");
                other[past.clone()].copy_from_slice(&state[past]);
                same(&other, &state, "a state with other words past the number");
                assert!(list == other_list);
                let _ = both_told(&state, random.below(2));
                answers += 2;
            }
        }
    }
    let due = [Ok(()), Err(32), Err(33), Err(18), Err(44)];
    assert!(met.len() == due.len() && due.iter().all(|answer| met.contains(answer)), "{met:?}");
    answers
}

/// A factor's words altered at will, in a place that is counted or in one that is not.
fn damaged(random: &mut Random) -> u64 {
    let (mut answers, mut met) = (0, BTreeSet::new());
    for _ in 0..12_000 {
        let number = any_number(random);
        let kit = random::kit(random, number);
        let mut state = words_of(random, &kit);
        state.extend(any_position(random, &kit));
        for _ in 0..6 {
            let mut state = state.clone();
            let place = match random.below(6) {
                0 => 0,
                1 => number - 1,
                2 => number % PLACES,
                3 => PLACES - 1,
                _ => random.below(number as u64) as usize,
            };
            let words = &mut state[at(place)..at(place + 1)];
            damage(random, words.try_into().expect("a factor's words"));
            let call = call_of(random);
            let refused = by_every_function(random, &mut state, call) == Err(31);
            assert!(place < number || !refused, "past the number: {}", shown(&state));
            met.insert((place < number, refused));
            answers += 4;
        }
    }
    assert_eq!(met.len(), 3, "{met:?}");
    answers
}

/// What a factor may have that another has not: nothing, another word for its sign, or one thing of those by which factors are told apart.
const DIFFERENCES: [&str; 8] =
    ["none", "sign's word", "sign", "precision", "scale", "lower end", "upper end", "both ends"];

/// A factor like this one but for that, as words; none where there is none.
fn but_for(random: &mut Random, given: &[u64], difference: &str) -> Option<Vec<u64>> {
    let factor = engine::from_words(given).expect("a good factor");
    let Factor { minus, bits, scale, lower, upper, .. } = factor;
    let other = match difference {
        "none" => return Some(given.to_vec()),
        "sign's word" => {
            let mut same = given.to_vec();
            same[0] = random.one_of(&MINUS_WORDS);
            return (minus && same != given).then_some(same);
        }
        "sign" => set_up(!minus, bits, scale, lower, upper),
        "precision" => set_up(minus, random.one_of(&[bits - 1, bits + 1]), scale, lower, upper),
        "scale" => set_up(minus, bits, random.one_of(&[-scale, scale - 1, scale + 1]), lower, upper),
        "lower end" => set_up(minus, bits, scale, random.one_of(&[lower - 1, lower + 1]), upper),
        "upper end" => set_up(minus, bits, scale, lower, random.one_of(&[upper - 1, upper + 1])),
        _ => set_up(minus, bits, scale, lower + 1, upper + 1),
    };
    other.ok().filter(|other| *other != factor).map(|other| words(&other).to_vec())
}

/// Two places of a kit have the same factor, or nearly: next to each other, far apart, at both ends of the kit, or one past the number.
fn alike(random: &mut Random) -> u64 {
    let (mut answers, mut met) = (0, BTreeMap::new());
    for i in 0..30_000 {
        let number = any_number(random).max(2);
        let kit = random::kit(random, number);
        let mut state = words_of(random, &kit);
        state.extend([0, least(kit.factors[0].bits), 0]);
        let last = number - 1;
        let any = random.below(last as u64) as usize;
        let far = random.from_to(any as u64 + 1, last as u64) as usize;
        let pairs = [(0, last), (0, 1), (last - 1, last), (any, any + 1), (any, far), (any, number)];
        let (one, other) = random.one_of(&pairs);
        if other == PLACES {
            continue;
        }
        let (one, other) = if random.below(2) == 0 || other == number { (one, other) } else { (other, one) };
        let difference = DIFFERENCES[i % DIFFERENCES.len()];
        let Some(like) = but_for(random, &state[at(one)..at(one + 1)], difference) else { continue };
        state[at(other)..at(other + 1)].copy_from_slice(&like);
        state[KIT_WORDS + 1] = 1 << (state[2] - 1);
        let refused = by_every_function(random, &mut state, (1, 4, 0)) == Err(43);
        let differ = i % DIFFERENCES.len() > 1;
        // What differs may be the same as a third one.
        assert!(refused || differ || other == number, "{difference}: {}", shown(&state));
        *met.entry((difference, other == number, refused)).or_insert(0) += 1;
        answers += 4;
    }
    for (i, difference) in DIFFERENCES.into_iter().enumerate() {
        assert!(met.get(&(difference, false, i < 2)).is_some_and(|&kits| kits > 50), "{difference} of {met:?}");
        assert!(!met.contains_key(&(difference, true, true)), "{difference} of {met:?}");
    }
    answers
}

/// Damage that no factor stands.
fn certain_damage(random: &mut Random, words: &mut [u64]) {
    match random.below(4) {
        0 => words[random.one_of(&NARROW)] |= 1 << random.from_to(32, 63),
        1 => words[random.one_of(&[4, 5, 6, 7, 8])] ^= 1 << random.below(64),
        2 => words[1] = random.one_of(&[0, 3, 25, 1 << 32 | 4]),
        _ => words[random.one_of(&[2, 3])] = random.one_of(&[0, 1 << 63, u64::MAX, (1 << 62) - 1]),
    }
}

/// Every set of the seven refusals at once: the first of them in their order is the answer.
fn refusals_at_once(random: &mut Random) -> u64 {
    let refusals = [42, 31, 43, 32, 33, 18, 44];
    let mut answers = 0;
    for i in 0..38_400u32 {
        let hold: Vec<u32> = (0..7).filter(|bit| i >> bit & 1 == 1).map(|bit| refusals[bit]).collect();
        let number = any_number(random).max(2);
        let kit = random::kit(random, number);
        let mut state = words_of(random, &kit);
        if hold.contains(&43) {
            let (one, other) =
                random.one_of(&[(0, number - 1), (0, 1), (number - 2, number - 1), (number - 1, number / 2 - 1)]);
            state.copy_within(at(one)..at(one + 1), at(other));
        }
        let place = random.below(number as u64) as usize;
        let bits = state[at(place) + 1] as u32;
        let mut position = [place as u64, random.from_to(least(bits), greatest(bits)), 0];
        if hold.contains(&32) {
            let places = [number as u64, PLACES as u64, u64::MAX, 1 << 32 | place as u64];
            let nexts = [least(bits) - 1, greatest(bits) + 1, 0, u64::MAX, 1 << 32 | least(bits)];
            match random.below(2) {
                0 => position[0] = random.one_of(&places),
                _ => position[1] = random.one_of(&nexts),
            }
        }
        if hold.contains(&33) {
            position[2] = random.one_of(&[1, 2, 1 << 32, 1 << 63, u64::MAX]);
        }
        if hold.contains(&31) {
            let place = random.one_of(&[0, number - 1, place]);
            certain_damage(random, &mut state[at(place)..at(place + 1)]);
        }
        if hold.contains(&42) {
            state[0] = random.one_of(&[0, 0, 97, 98, 1 << 32 | number as u64, 1 << 63, u64::MAX]);
        }
        state.extend(position);
        let cap = if hold.contains(&18) { 0 } else { random.one_of(&[1, 5, 1 << 32, u64::MAX]) };
        let (length, free) = if hold.contains(&44) {
            random.one_of(&[
                (0, 0),
                (1, 0),
                (2, 1),
                (2, 2),
                (2, 3),
                (9, 8),
                (9, 9),
                (9, u64::MAX),
                (9, u64::MAX - 1),
                (0, 1),
            ])
        } else {
            random.one_of(&[(2, 0), (3, 0), (3, 1), (9, 7), (64, 62), (64, 0)])
        };
        let first = |few: &[u32]| hold.iter().copied().find(|refusal| few.contains(refusal));
        let (of_kit, of_state) = (first(&[42, 31, 43]), first(&[42, 31, 43, 32]));
        agree!(engine::form_kit(&state), of_kit.unwrap_or(0), "forming {} with {hold:?}", shown(&state));
        agree!(engine::new_kit_sweep(&state).err(), of_kit, "a new sweep of {} with {hold:?}", shown(&state));
        let finished = if position[2] == 0 { 3 } else { 1 };
        agree!(engine::kit_clean(&state, 0), of_state.unwrap_or(finished), "{} with {hold:?}", shown(&state));
        let before = state.clone();
        let answer = by_every_function(random, &mut state, (cap, length, free)).err();
        agree!(answer, first(&refusals), "a call on {} with {hold:?}", shown(&before));
        answers += 7;
    }
    answers
}

/// 255 comes before anything else is looked at, and nothing is written; words past those that are due are not looked at.
fn short_lists(random: &mut Random) -> u64 {
    let mut answers = 0;
    for i in 0..1500 {
        let number = any_number(random);
        let kit = random::kit(random, number);
        let mut good = words_of(random, &kit);
        good.extend(any_position(random, &kit));
        // Now and then a kit that is refused.
        match i % 4 {
            0 => good[0] = 0,
            1 => certain_damage(random, &mut good[at(0)..at(1)]),
            _ => (),
        }
        good.extend([random.word(), random.word()]);
        for length in [0, 1, 11, KIT_WORDS - 1, KIT_WORDS, KIT_WORDS + 1, KIT_STATE_WORDS] {
            let kit = &good[..length];
            let short = length < KIT_WORDS;
            let due = if short { TOO_SHORT } else { Kit::form(kit).err().unwrap_or(0) };
            agree!(engine::form_kit(kit), due, "a kit of {length} words");
            for out_length in [0, 1, KIT_WORDS, KIT_STATE_WORDS - 1, KIT_STATE_WORDS, KIT_STATE_WORDS + 1] {
                let (mut out, mut expected) = (vec![UNTOUCHED; out_length], vec![UNTOUCHED; out_length]);
                let due = if short || out_length < KIT_STATE_WORDS {
                    TOO_SHORT
                } else {
                    kit::new_state(kit).map_or_else(
                        |refusal| refusal,
                        |state| {
                            expected[..KIT_STATE_WORDS].copy_from_slice(&state);
                            0
                        },
                    )
                };
                let answer = engine::new_kit_sweep_to(kit, &mut out);
                agree!(answer, due, "a new sweep of {length} words into {out_length}");
                same(&out, &expected, "a new kit sweep");
                answers += 1;
            }
            answers += 1;
        }
        for length in [0, 1, KIT_WORDS, KIT_WORDS + 1, KIT_STATE_WORDS - 1, KIT_STATE_WORDS, KIT_STATE_WORDS + 1] {
            let short = length < KIT_STATE_WORDS;
            let told = |state: &[u64]| told(state, 1).map_or_else(|refusal| refusal, Told::number);
            let due = if short { TOO_SHORT } else { told(&good[..length]) };
            agree!(engine::kit_clean(&good[..length], 1), due, "whether a kit of {length} words is clean");
            for count_length in 0..=COUNT_WORDS + 1 {
                let (cap, list_length, free) = call_of(random);
                let (mut state, mut list) = (good[..length].to_vec(), words_before(random, list_length));
                let (mut counts, mut due_counts) = (vec![UNTOUCHED; count_length], vec![UNTOUCHED; count_length]);
                let (mut due_state, mut due_list) = (state.clone(), list.clone());
                let answer = engine::kit_sweep_to(&mut state, cap, &mut list, free as usize, &mut counts);
                let due = if short || count_length < COUNT_WORDS {
                    TOO_SHORT
                } else {
                    kit::call(&mut due_state, cap, &mut due_list, free).map_or_else(
                        |refusal| refusal,
                        |Counts { trials, rounds, place }| {
                            due_counts[..COUNT_WORDS].copy_from_slice(&[trials, rounds, place]);
                            0
                        },
                    )
                };
                let there = (answer, counts, list);
                agree!(there, (due, due_counts, due_list), "a call on {length} words with {count_length} counts");
                same(&state, &due_state, "the state after a call");
                answers += 1;
            }
            answers += 1;
        }
    }
    answers
}

/// One call with cap 100 on document 01's three examples, with 8 places and with 3; then the rest.
fn figure(_: &mut Random) -> u64 {
    let words = example_kit().words();
    let begun = both_new(&words).expect("a good kit");
    let (mut state, mut list) = (begun.clone(), [7; 8]);
    agree!(both_call(&mut state, 100, &mut list, 0), Ok(Counts { trials: 4, rounds: 3, place: 4 }), "8 places");
    agree!((list, position(&state)), ([1, 16, 2, 19, 7, 7, 7, 7], [2, 15, 1]), "8 places");
    agree!((both_told(&state, 2), both_told(&begun, 0)), (Ok(Told::NotClean), Ok(Told::Unfinished)), "8 places");
    let (mut state, mut list) = (begun, [7; 3]);
    agree!(both_call(&mut state, 100, &mut list, 0), Ok(Counts { trials: 3, rounds: 1, place: 2 }), "3 places");
    agree!((list, position(&state)), ([1, 16, 7], [2, 9, 0]), "3 places");
    agree!(both_call(&mut state, 100, &mut list, 0), Ok(Counts { trials: 1, rounds: 2, place: 2 }), "the rest");
    agree!((list, position(&state)), ([2, 19, 7], [2, 15, 1]), "the rest");
    6
}
