//! A personalisation line in one store: cards come in, one is spoiled, and the line asks who stands where.
//!
//! A card passes four stations: it gets a serial, a key, applets and a print, in this order. A station is a kind, what
//! it writes on the card is a value of eight bytes. Two groups are kept: the cards with serial and key, and among them
//! those with all four. So the two questions at the end need no search. (Values may be of sixteen bytes:
//! bindings/README.md has what differs.)
//!
//! Every answer is checked (docs/COMMANDS.md, "What a program must check"); at the first that is not as expected, the
//! program says which and ends with status 1. bindings/c/cards.c does the same work, and both write what
//! bindings/cards.txt has.

#![forbid(unsafe_code)]

use std::fmt::Debug;
use std::process::ExitCode;
use yirbarn::{Entity, Refusal, Store};

/// The store: so many cards at once.
const CARDS: usize = 32;

/// The kinds: any numbers from 0 to 127.
const SERIAL: u8 = 10;
const KEY: u8 = 20;
const APPLETS: u8 = 30;
const PRINT: u8 = 40;

/// The stations in the line's order, and how many of them each group has: the first so many.
const LINE: [(u8, &str); 4] = [(SERIAL, "serial"), (KEY, "key"), (APPLETS, "applets"), (PRINT, "print")];
const WITH_KEY: usize = 2;
const PRINTED: usize = LINE.len();

/// A roll is 4 bytes, 9 for each card and 9 for each of its values.
const ROLL_BYTES: usize = 4 + 9 * (CARDS + CARDS * LINE.len());

/// The commands used here: byte, name, and the length of the accepted answer (docs/COMMANDS.md, "The sixteen
/// commands").
type Command = (u8, &'static str, usize);
const REG: Command = (0x01, "REG", 2);
const HOLD: Command = (0x02, "HOLD", 1);
const NEW: Command = (0x03, "NEW", 9);
const KILL: Command = (0x07, "KILL", 1);
const GROUP: Command = (0x09, "GROUP", 2);
const APPLY: Command = (0x0A, "APPLY", 1);
const BAR: Command = (0x0B, "BAR", 1);
const RANGE: Command = (0x0C, "RANGE", 10);
const EMPTY: Command = (0x0D, "EMPTY", 1);
const TALLY: Command = (0x0E, "TALLY", 5);

/// What the stations wrote on each card: the first of the line wrote the first value, and so on.
const ORDERS: [&[u64]; 7] = [
    &[7001],
    &[7002, 0xA200000000007002],
    &[7003, 0xA300000000007003, 3, 901],
    &[7004],
    &[7005, 0xA500000000007005, 1],
    &[7006, 0xA600000000007006, 3, 902],
    &[7007, 0xA700000000007007],
];

/// Which of them is spoiled, and the one that is made in its stead.
const SPOILED: usize = 2;
const REMAKE: &[u64] = &[7008, 0xA800000000007008];

/// What was not as expected, in words.
type Surprise = String;

/// What a refusal's number means, docs/COMMANDS.md says; where it should be 0, nothing should have been refused.
fn same<T: PartialEq + Debug>(what: &str, is: T, should: T) -> Result<(), Surprise> {
    if is == should {
        return Ok(());
    }
    Err(format!("{what}: {is:?}, should be {should:?}"))
}

/// For an entry that is refused.
fn refused(what: &str) -> impl Fn(Refusal) -> Surprise + '_ {
    move |refusal| format!("{what}: {refusal}")
}

/// A tape as bytes and as the list of its commands.
struct Tape {
    bytes: Vec<u8>,
    commands: Vec<Command>,
}

/// Writing a tape: small helpers, one for each command. Each gives the command's number on this tape, to find its
/// answer by.
impl Tape {
    /// A fresh tape. Its EMPTY sees to it that no kind is left over in hand or bar.
    fn begin() -> Tape {
        let mut tape = Tape {
            bytes: Vec::new(),
            commands: Vec::new(),
        };
        tape.empty();
        tape
    }

    /// Numbers among the operands go lowest byte first.
    fn write(&mut self, command: Command, operands: &[u8]) -> usize {
        self.bytes.push(command.0);
        self.bytes.extend(operands);
        self.commands.push(command);
        self.commands.len() - 1
    }

    fn reg(&mut self, kind: u8) -> usize {
        self.write(REG, &[kind])
    }

    fn hold(&mut self, kind: u8, value: u64) -> usize {
        let operands = [&[kind][..], &value.to_le_bytes()].concat();
        self.write(HOLD, &operands)
    }

    fn new_card(&mut self) -> usize {
        self.write(NEW, &[])
    }

    fn kill(&mut self, card: Entity) -> usize {
        let operands = [card.index.to_le_bytes(), card.version.to_le_bytes()].concat();
        self.write(KILL, &operands)
    }

    fn group(&mut self) -> usize {
        self.write(GROUP, &[])
    }

    fn apply(&mut self) -> usize {
        self.write(APPLY, &[])
    }

    fn bar(&mut self, kind: u8) -> usize {
        self.write(BAR, &[kind])
    }

    fn range(&mut self) -> usize {
        self.write(RANGE, &[])
    }

    fn empty(&mut self) -> usize {
        self.write(EMPTY, &[])
    }

    fn tally(&mut self) -> usize {
        self.write(TALLY, &[])
    }

    /// Holds the kinds of the first stations, for GROUP and RANGE, to which the values say nothing.
    fn hold_kinds(&mut self, stations: usize) {
        for (kind, _) in &LINE[..stations] {
            self.hold(*kind, 0);
        }
    }

    /// Holds what is on a card, and makes it.
    fn new_order(&mut self, order: &[u64]) -> usize {
        for ((kind, _), value) in LINE.iter().zip(order) {
            self.hold(*kind, *value);
        }
        self.new_card()
    }
}

/// What each command of a tape told, behind the 0 of its answer.
struct Answers(Vec<Vec<u8>>);

impl Answers {
    /// Goes through the commands and the answers side by side: each must begin with 0, for only then its length is
    /// known and the next answer can be found.
    fn of(tape: &Tape, mut answers: &[u8]) -> Result<Answers, Surprise> {
        let mut told = Vec::new();
        for (i, &(_, name, len)) in tape.commands.iter().enumerate() {
            let refusal = answers.first().ok_or("the answers end too early")?;
            same(&format!("command {i}, {name}"), *refusal, 0)?;
            let (answer, rest) = answers.split_at_checked(len).ok_or("an answer is cut")?;
            told.push(answer[1..].to_vec());
            answers = rest;
        }
        same("bytes of answers left", answers.len(), 0)?;
        Ok(Answers(told))
    }

    /// REG and GROUP tell 1 where the kind or the group is new, RANGE where there is such a range.
    fn yes(&self, what: &str, command: usize) -> Result<(), Surprise> {
        same(what, self.0[command][0], 1)
    }

    fn number(&self, command: usize, at: usize) -> u32 {
        number_of(&self.0[command][at..at + 4]) as u32
    }

    fn card(&self, command: usize) -> Entity {
        let (index, version) = (self.number(command, 0), self.number(command, 4));
        Entity { index, version }
    }

    /// From start to before end.
    fn range(&self, command: usize) -> Result<(usize, usize), Surprise> {
        self.yes("such a range", command)?;
        Ok((self.number(command, 1) as usize, self.number(command, 5) as usize))
    }
}

/// Bytes as a number, lowest byte first.
fn number_of(bytes: &[u8]) -> u64 {
    bytes
        .iter()
        .rev()
        .fold(0, |number, &byte| number << 8 | u64::from(byte))
}

fn run(store: &mut Store, tape: &Tape) -> Result<Answers, Surprise> {
    // Ten bytes for each byte of tape, and 144 more, are never too few (272 more, where values are of sixteen bytes).
    let mut answers = vec![0; 10 * tape.bytes.len() + 144];
    let ran = store.run(&tape.bytes, &mut answers);
    same("the run's stop", ran.stop, None)?;
    same("commands done", ran.commands, tape.commands.len())?;
    same("bytes read", ran.read, tape.bytes.len())?;
    Answers::of(tape, &answers[..ran.written])
}

/// Keys are written in hexadecimal, all else in decimal.
fn value_text(station: usize, value: u64) -> String {
    match LINE[station] {
        (KEY, name) => format!(" {name} {value:016X}"),
        (_, name) => format!(" {name} {value}"),
    }
}

fn print_card(card: Entity, values: &str) {
    println!("  card {} version {}:{values}", card.index, card.version);
}

fn print_order(card: Entity, order: &[u64]) {
    let mut values = String::new();
    for (station, value) in order.iter().enumerate() {
        values += &value_text(station, *value);
    }
    print_card(card, &values);
}

/// Registers the kinds, then builds the two groups of one family, the smaller first, and puts them in force.
fn lay_out(store: &mut Store) -> Result<(), Surprise> {
    let mut tape = Tape::begin();
    let regs = LINE.map(|(kind, _)| tape.reg(kind));
    tape.hold_kinds(WITH_KEY);
    let with_key = tape.group();
    tape.hold_kinds(PRINTED);
    let printed = tape.group();
    tape.apply();
    let answers = run(store, &tape)?;
    for reg in regs {
        answers.yes("a new kind", reg)?;
    }
    answers.yes("the smaller group added", with_key)?;
    answers.yes("the larger group added", printed)?;
    println!("groups: serial key; serial key applets print");
    Ok(())
}

/// All cards come in, in one run. Gives their names in the store.
fn cards_in(store: &mut Store) -> Result<[Entity; ORDERS.len()], Surprise> {
    let mut tape = Tape::begin();
    let news = ORDERS.map(|order| tape.new_order(order));
    let answers = run(store, &tape)?;
    let made = news.map(|command| answers.card(command));
    println!("in:");
    for (card, order) in made.into_iter().zip(ORDERS) {
        print_order(card, order);
    }
    Ok(made)
}

/// One card goes, and the one made in its stead takes its index, with the next version.
fn replace_card(store: &mut Store, spoiled: Entity) -> Result<(), Surprise> {
    let mut tape = Tape::begin();
    tape.kill(spoiled);
    let command = tape.new_order(REMAKE);
    let card = run(store, &tape)?.card(command);
    same("the new card's index", card.index, spoiled.index)?;
    same("the new card's version", card.version, spoiled.version + 1)?;
    println!("killed:");
    print_order(spoiled, ORDERS[SPOILED]);
    println!("in its stead:");
    print_order(card, REMAKE);
    Ok(())
}

/// Serial and key side by side. The range is one of both columns: row i of the one and row i of the other are of the
/// same card. That is what the library is proved to keep; the check costs little and shows it.
fn print_rows(store: &Store, (start, end): (usize, usize)) -> Result<(), Surprise> {
    let serials = store.rows(SERIAL, start, end).map_err(refused("the serials' column"))?;
    let keys = store.rows(KEY, start, end).map_err(refused("the keys' column"))?;
    for (serial, key) in serials.zip(keys) {
        same("the key's card", key.entity, serial.entity)?;
        print_order(serial.entity, &[serial.value, key.value]);
    }
    Ok(())
}

/// Two questions in one run. The hand is the smaller group; the bar is what the larger one has besides. It leaves out
/// the cards that hold all of it: these are the printed ones, for print is the last station. A card that has applets
/// and no print stays in the range.
fn ask(store: &mut Store) -> Result<(), Surprise> {
    let mut tape = Tape::begin();
    tape.hold_kinds(WITH_KEY);
    let both = tape.range();
    tape.hold_kinds(WITH_KEY);
    for (kind, _) in &LINE[WITH_KEY..PRINTED] {
        tape.bar(*kind);
    }
    let unprinted = tape.range();
    let answers = run(store, &tape)?;
    let (start, end) = answers.range(both)?;
    println!("serial and key: places {start} to {end}");
    print_rows(store, (start, end))?;
    let (start, end) = answers.range(unprinted)?;
    println!("serial and key, not yet printed: places {start} to {end}");
    print_rows(store, (start, end))
}

/// Takes the next number off the roll, and never reads past its end.
fn take_number(roll: &mut &[u8], bytes: usize) -> Result<u64, Surprise> {
    let (number, rest) = roll.split_at_checked(bytes).ok_or("the roll ends too early")?;
    *roll = rest;
    Ok(number_of(number))
}

/// A card's values, as text.
fn take_parts(roll: &mut &[u8]) -> Result<String, Surprise> {
    let mut values = String::new();
    for _ in 0..take_number(roll, 1)? {
        let kind = take_number(roll, 1)?;
        let station = LINE.iter().position(|line| u64::from(line.0) == kind);
        let station = station.ok_or("a kind that is no station's")?;
        values += &value_text(station, take_number(roll, 8)?);
    }
    Ok(values)
}

fn call_roll(store: &Store) -> Result<(), Surprise> {
    let mut out = [0; ROLL_BYTES];
    let len = store.roll(&mut out).map_err(refused("the roll"))?;
    let mut roll = &out[..len];
    let live = take_number(&mut roll, 4)?;
    println!("roll: {len} bytes, {live} cards");
    for _ in 0..live {
        let index = take_number(&mut roll, 4)? as u32;
        let version = take_number(&mut roll, 4)? as u32;
        print_card(Entity { index, version }, &take_parts(&mut roll)?);
    }
    same("bytes of roll left", roll.len(), 0)
}

/// How many commands were refused since start: none, for each answer was checked.
fn check_tally(store: &mut Store) -> Result<(), Surprise> {
    let mut tape = Tape::begin();
    let command = tape.tally();
    let refused = run(store, &tape)?.number(command, 0);
    same("commands refused", refused, 0)?;
    println!("refused: {refused}");
    Ok(())
}

fn work() -> Result<(), Surprise> {
    let needed = Store::words_needed(CARDS, LINE.len()).ok_or("no store is so large")?;
    // The lent words: the whole store is here.
    let mut words = vec![0; needed];
    let mut store = Store::start(&mut words, CARDS, LINE.len()).map_err(refused("start"))?;
    println!("store: {CARDS} cards, {} kinds, {needed} words", LINE.len());
    lay_out(&mut store)?;
    let made = cards_in(&mut store)?;
    replace_card(&mut store, made[SPOILED])?;
    ask(&mut store)?;
    call_roll(&store)?;
    check_tally(&mut store)
}

fn main() -> ExitCode {
    match work() {
        Ok(()) => ExitCode::SUCCESS,
        Err(surprise) => {
            eprintln!("cards: {surprise}");
            ExitCode::FAILURE
        }
    }
}
