//! Converters run by hand: scripts with what comes of them, and random lines against the second checker's tick.

mod made;

use checker::bytes::{converter_bytes, SIDES};
use checker::generate::{design, matched_converter, Random, Shape};
use checker::tick::{PlainSides, Runner};
use desk::design::{from_bytes, Design, SIDE_WORDS};
use desk::play::{play, Played};
use desk::records::Record;
use made::{example, page};

/// What a script writes, to both.
fn played(
    (design, records): &(Design, Vec<Record>),
    script: impl AsRef<[u8]>,
    prompt: bool,
) -> (Played, String, String) {
    let (mut out, mut errors) = (Vec::new(), Vec::new());
    let mut input = script.as_ref();
    let played = play(design, records, "script", &mut input, prompt, &mut out, &mut errors);
    let text = |bytes| String::from_utf8(bytes).expect("text is written");
    (played.expect("memory is read and written"), text(out), text(errors))
}

/// Asks for all that a script writes.
fn check(page: &(Design, Vec<Record>), script: &str, expected: Played, out: &str, errors: &str) {
    let (played, written, wrong) = played(page, script, false);
    assert_eq!(written, out);
    assert_eq!(wrong, errors);
    assert_eq!(played, expected);
}

#[test]
fn the_lock() {
    let script = "\
# A thumbnail job, and a drag that begins while it runs.

tick
kernel.tick
press
drop
host.tick,kernel.tick
go
  drp
drop
quit
press
";
    let out = "\
tick 0: record 0
  kernel  free                      silent
  host    idle                      may send press
tick 1: record 1
  kernel  free      tick            silent
  host    idle      tick            may send press
tick 2: record 3; holds thumb
  kernel  job       read thumbnail  must send done
  host    idle      tick            may send press
refused (17), still tick 2: kernel must send done; host may send press
tick 3: record 4; holds waits
  kernel  free      send done       silent
  host    waiting   send press      silent
refused (17), still tick 3: kernel silent; host silent
tick 4: record 5; holds held, drags
  kernel  held      read lock       silent
  host    dragging  read go         may send drop
tick 5: record 0
  kernel  free      read release    silent
  host    idle      send drop       may send press
5 ticks done, 2 shows refused
";
    let errors = "\
script:8:1: no side sends 'go'
script:9:3: no word 'drp'; there is 'drop'
";
    check(&example("lock"), script, Played { ticks: 5, refused: 2, mistakes: 2 }, out, errors);
}

#[test]
fn a_signal_of_two_sides() {
    // Both may ask at first; then the host alone can; then neither can, and both do at times.
    let script = "\
ask
kernel.ask
ask
ask
leave
leave
host.leave
kernel.enter
";
    let out = "\
tick 0: record 0
  kernel  away                may send ask
  host    away                may send ask
tick 1: record 1; holds wants1
  kernel  wants   send ask    silent
  host    away    tick        may send ask
tick 2: record 5; holds inside1, wants2
  kernel  inside  read enter  must send leave
  host    wants   send ask    silent
tick 3: record 6; holds wants2
  kernel  away    send leave  may send ask
  host    wants   tick        silent
refused (17), still tick 3: kernel may send ask; host silent
refused (17), still tick 3: kernel may send ask; host silent
3 ticks done, 2 shows refused
";
    let errors = "\
script:1:1: 'ask' needs its side; there are 'kernel.ask' and 'host.ask'
script:4:1: 'ask' needs its side; there are 'kernel.ask' and 'host.ask'
script:6:1: 'leave' needs its side; there are 'kernel.leave' and 'host.leave'
";
    check(&example("mutex"), script, Played { ticks: 3, refused: 2, mistakes: 3 }, out, errors);
}

#[test]
fn three_sides() {
    let script = "\
press ask

drop, third.tick
restart
press press thir.ask host.prss third.
help ask
third.ask
tick
host.press
";
    let out = "\
tick 0: record 0
  kernel  free                    silent
  host    idle                    may send press
  third   quiet                   may send ask
tick 1: record 3; holds waits, asks
  kernel  free      tick          silent
  host    waiting   send press    silent
  third   asking    send ask      silent
tick 2: record 5; holds taken, drags, asks
  kernel  taken     read lock     silent
  host    dragging  read go       may send drop
  third   asking    tick          silent
tick 3: record 2; holds asks
  kernel  free      read release  silent
  host    idle      send drop     may send press
  third   asking    tick          silent
tick 0: record 0
  kernel  free                    silent
  host    idle                    may send press
  third   quiet                   may send ask
tick 1: record 2; holds asks
  kernel  free      tick          silent
  host    idle      tick          may send press
  third   asking    send ask      silent
tick 2: record 6; holds asks
  kernel  free      tick          silent
  host    idle      tick          may send press
  third   asking    tick          silent
tick 3: record 9; holds taken, waits, works
  kernel  taken     read lock     silent
  host    waiting   send press    silent
  third   working   read start    must send done
6 ticks done, 0 shows refused
";
    let errors = "\
script:5:7: a second word for host
script:5:13: no side 'thir'; there is 'third'
script:5:27: no signal 'prss'; there is 'press'
script:5:38: no signal ''
script:6:1: 'help' stands alone in its line
";
    let expected = Played { ticks: 6, refused: 0, mistakes: 5 };
    check(&example("thumbnails"), script, expected, out, errors);
}

/// A host whose signals are called like words of a line.
const LIKE_WORDS: &str = "
    ## Kernel
    | state | holds | transitions |
    |---|---|---|
    | k | | tick to k |

    ## Host
    | state | holds | transitions |
    |---|---|---|
    | a | | tick to a; send quit to b |
    | b | | tick to b; send tick to a |

    ## Converter
    | record | names | kernel | host | next |
    |---|---|---|---|---|
    | 0 | k, a | tick | tick | 0 |
    |   |      | tick | send quit | 1 |
    | 1 | k, b | tick | tick | 1 |
    |   |      | tick | send tick | 0 |
";

#[test]
fn signals_that_are_called_like_words() {
    let script = "tick\nhost.quit\ntick\nkernel.tick\nhost.tick\nquit\ntick\n";
    let out = "\
tick 0: record 0
  kernel  k             silent
  host    a             may send quit
tick 1: record 0
  kernel  k  tick       silent
  host    a  tick       may send quit
tick 2: record 1
  kernel  k  tick       silent
  host    b  send quit  may send tick
tick 3: record 1
  kernel  k  tick       silent
  host    b  tick       may send tick
tick 4: record 1
  kernel  k  tick       silent
  host    b  tick       may send tick
tick 5: record 0
  kernel  k  tick       silent
  host    a  send tick  may send quit
5 ticks done, 0 shows refused
";
    check(&page(LIKE_WORDS), script, Played { ticks: 5, refused: 0, mistakes: 0 }, out, "");
}

#[test]
fn help_and_prompt() {
    let (seen, out, errors) = played(&example("lock"), "?\n  # nothing\nhelp", true);
    let help = "\
A line is a tick: the signals that are sent in it, separated by blanks or commas.
A side without a word shows nothing, or what it must send.
  SIGNAL       it is sent, by the one side that can
  SIDE.SIGNAL  it is sent by this side
  SIDE.tick    this side shows nothing
  tick         no side has a word, as in an empty line
  restart      begins again
  quit         ends
  # WORDS      a comment, no tick
  help, ?      these words
kernel sends done
host sends press, drop
";
    let stand = "\
tick 0: record 0
  kernel  free                      silent
  host    idle                      may send press
";
    let end = "0 ticks done, 0 shows refused\n";
    assert_eq!(out, format!("'help' lists the words\n{stand}> {help}> > {help}> \n{end}"));
    assert_eq!((seen, errors), (Played::default(), String::new()));
}

#[test]
fn bytes_and_ends_of_lines() {
    let lock = example("lock");
    let (plain, out, _) = played(&lock, "press\n\n", false);
    assert_eq!(plain, Played { ticks: 2, refused: 0, mistakes: 0 });
    for same in ["\u{feff}press\r\n\r\n", "\tpress ,\n\n", "press\ntick", "host.press\n , \r\n"] {
        assert_eq!(played(&lock, same, false), (plain, out.clone(), String::new()), "{same:?}");
    }
    let (seen, _, errors) = played(&lock, b"\xef\xbb\xbf\xc3\xa4 \xff\n\xef\xbb\xbfpress", false);
    assert_eq!(seen, Played { ticks: 0, refused: 0, mistakes: 2 });
    assert_eq!(
        errors,
        "script:1:3: a byte that isn't UTF-8 text\nscript:2:1: no word '\u{feff}press'; there is 'press'\n"
    );
}

#[test]
fn random_shows() {
    let mut random = Random::new(77);
    let (mut done, mut refused) = (0, 0);
    for _ in 0..2_000 {
        let made = design(&mut random, &Shape::SMALL);
        let spare = random.below(8);
        let converter = converter_bytes(&matched_converter(&mut random, &made, spare));
        let named = from_bytes(&made.to_five_blocks(), "random");
        let mut runner = Runner { record: 0, delivered: [0; SIDES] };
        let mut sides = PlainSides::default();
        let (mut script, mut expected) = (String::new(), Played::default());
        for _ in 0..20 {
            let mut shows = [0; SIDES];
            for side in 0..SIDES {
                // Mostly something that the side's state has, at times what another state of it has.
                let near = !random.once_in(3);
                let states = &made.sides[side];
                let at = if near { sides.states[side] } else { random.below(states.len()) };
                shows[side] = random.pick(&states[at].transitions).event.min(0);
                let name = match shows[side] {
                    0 => "tick".to_string(),
                    event => format!("x{}", -event),
                };
                script += &format!("{}.{name} ", SIDE_WORDS[side]);
            }
            script += "\n";
            let allowed = sides.allow(&made, shows);
            assert_eq!(checker::tick(&converter, &mut runner, shows).is_ok(), allowed);
            if allowed {
                sides.deliver(&made, runner.delivered).expect("each side has what is delivered");
                expected.ticks += 1;
            } else {
                expected.refused += 1;
            }
        }
        let records = desk::records::from_bytes(&converter);
        let (seen, out, errors) = played(&(named, records), &script, false);
        assert_eq!((seen, errors.as_str()), (expected, ""), "{made:?}\n{script}");
        let stands: Vec<&str> = out.lines().filter(|line| line.starts_with("tick ")).collect();
        let last = stands.last().expect("it stands somewhere");
        let at = format!("tick {}: record {}", expected.ticks, runner.record);
        assert!(*last == at || last.starts_with(&format!("{at};")), "{last} {at}");
        done += expected.ticks;
        refused += expected.refused;
    }
    println!("{done} ticks done, {refused} shows refused");
    assert!(done > 5_000 && refused > 5_000);
}

#[test]
fn any_lines() {
    let pieces: Vec<&[u8]> = vec![
        b"press",
        b"host",
        b".",
        b"ask",
        b"tick",
        b" ",
        b",",
        b"\n",
        b"\n",
        b"kernel.",
        b"third.",
        b"drop",
        b"#",
        b"\xff",
        b"\xc3\xa4",
        b"help",
        b"?",
        b"restart",
        b"done",
        b"\r",
        b"\0",
        b"go",
    ];
    let thumbnails = example("thumbnails");
    let mut random = Random::new(5);
    let mut sum = Played::default();
    for _ in 0..3_000 {
        let length = random.below(60);
        let script: Vec<u8> =
            (0..length).flat_map(|_| random.pick(&pieces).iter().copied()).collect();
        let (seen, out, errors) = played(&thumbnails, &script, false);
        assert_eq!(seen.mistakes, errors.lines().count());
        assert_eq!(seen.refused, out.lines().filter(|line| line.starts_with("refused")).count());
        sum.ticks += seen.ticks;
        sum.refused += seen.refused;
        sum.mistakes += seen.mistakes;
    }
    println!("{sum:?}");
    assert!(sum.ticks > 1_000 && sum.refused > 100 && sum.mistakes > 1_000);
}
