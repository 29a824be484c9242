import os,re,sys
root=sys.argv[1]; os.chdir(root)
def put(p,s):
    os.makedirs(os.path.dirname(p),exist_ok=True); open(p,'w').write(s)
def sub(p,*prs):
    s=open(p).read()
    for a,b in prs:
        assert a in s,(p,a); s=s.replace(a,b,1)
    open(p,'w').write(s)
put('crates/dc_run_count/src/lib.rt','''//! The engine of `count`: how many events of each kind a trace tells.
#![tactic(auto)]

mod count;

pub use count::{COUNT, Count, Kind};
''')
put('crates/dc_run_count/src/count.rt','''//! `count`: how many events of each kind a trace tells.
ghost use Rattle.std.specs.Prelude.{◌≡◌, [], ◌∷◌, ◌++◌, ◌+◌, ◌≤◌, count_by, length};
ghost use Rattle.arrayvec.specs.ArrayVec.{array_vec_len};
ghost use Rattle.dc_device.specs.Lines.{spelled};
ghost use Rattle.dc_print.specs.declared.text.TheConstants.{TEXT_CAPACITY};
ghost use Rattle.dc_run_count.specs.Count.{answer_counts, count_lines, count_text, is_kind};
ghost use Rattle.dc_run_count.specs.declared.count.Kind.{Kind};

use dc_answer::{Outcome, Page, ReadTables, Tell, Then};
use dc_event::Event;
use dc_print::{Text, append, append_number};
use dc_run::ReadRun;
use dc_tables::Tables;
use std::alloc::{AllocError, Global};

/// What kind of event one is.
#[derive(Clone, Copy, Debug, PartialEq, Eq)]
pub enum Kind {
    /// A word arrives.
    Arrival,
    /// A router makes a step.
    Route,
    /// An output makes a send step.
    Send,
    /// A tick ends.
    Tick,
}

/// Whether an event is of this kind.
fn is_of(kind: Kind, event: Event) -> bool
    ensures { result ≡ is_kind kind event }
{
    match event {
        Event::Arrive(_, _) => matches!(kind, Kind::Arrival),
        Event::Route(_) => matches!(kind, Kind::Route),
        Event::Send(_) => matches!(kind, Kind::Send),
        Event::Tick => matches!(kind, Kind::Tick),
    }
}

/// How many events of a run are of this kind.
fn count_of(kind: Kind, run: &[Event]) -> usize
    ensures { result ≡ count_by (is_kind kind) run.now }
{
    run.iter().filter(|event| is_of(kind, **event)).count()
}

/// Puts a count at the end.
fn append_count(text: &mut Text, subject: &[u8], kind: Kind, run: &[Event])
    requires { array_vec_len text.old + length subject.now + 20 ≤ TEXT_CAPACITY }
    ensures items { text.new.items ≡ text.old.items ++ count_text subject.now kind run.now }
    ensures len { array_vec_len text.new ≤ array_vec_len text.old + length subject.now + 20 }
{
    append(text, subject);
    append_number(text, count_of(kind, run) as u64);
}

/// The lines of all counts.
fn print_counts(text: &mut Text, run: &[Event])
    ensures { text.new.items ++ 10 ∷ [] ≡ spelled (count_lines run.now) }
{
    text.clear();
    append_count(text, b"arrivals ", Kind::Arrival, run);
    append(text, b"\\n");
    append_count(text, b"routes ", Kind::Route, run);
    append(text, b"\\n");
    append_count(text, b"sends ", Kind::Send, run);
    append(text, b"\\n");
    append_count(text, b"ticks ", Kind::Tick, run);
}

/// Counts the events of a trace by their kinds. It ends `Done`.
#[derive(Clone, Copy, Debug)]
pub struct Count;

impl Tell<(Tables, Vec<Event>)> for Count {
    ghost answers = { λ _ known answer. answer ≡ answer_counts known.1.items };

    fn tell(
        &self,
        _alloc: Global,
        known: (Tables, Vec<Event>),
        page: &mut Page,
    ) -> Result<Outcome, AllocError> {
        let (_tables, run) = known;
        let mut text = Text::new();
        print_counts(&mut text, run.as_slice());
        page.tell(text);
        Ok(Outcome::Done)
    }
}

/// The engine of `count`.
pub const COUNT: ReadTables<ReadRun<Then<Count>>> = ReadTables(ReadRun(Then(Count)));
''')
put('crates/dc_run_count/specs/Lib.antt','-- What `count` answers.\npub mod Count\n')
put('crates/dc_run_count/specs/Count.antt','''-- What `count` answers to a run.
use Rattle.std.specs.Prelude.{ℕ, Bool, true, false, List, [], ◌∷◌, ◌++◌, codes, count_by, decimal}
use Rattle.dc_answer.specs.Answer.{Answer}
use Rattle.dc_answer.specs.declared.exit.Outcome.TheVariants.{Done}
use Rattle.dc_event.specs.declared.event.Event.{Event}
use Rattle.dc_event.specs.declared.event.Event.TheVariants.{Tick as OneTick, Arrive, Route as OneRoute, Send as OneSend}
use Rattle.dc_run_count.specs.declared.count.Kind.{Kind}
use Rattle.dc_run_count.specs.declared.count.Kind.TheVariants.{Arrival, Route, Send, Tick}

-- whether an event is of this kind
abbrev pub is_kind : Kind → Event → Bool
is_kind Arrival (Arrive w b) = true
is_kind Route (OneRoute r) = true
is_kind Send (OneSend o) = true
is_kind Tick OneTick = true
is_kind kind event = false

-- as `routes 12`
abbrev pub count_text : List ℕ → Kind → List Event → List ℕ
count_text subject kind run = subject ++ decimal (count_by (is_kind kind) run)

-- a line for each kind
abbrev pub count_lines : List Event → List (List ℕ)
count_lines run =
    count_text (codes "arrivals ") Arrival run ∷ count_text (codes "routes ") Route run ∷ count_text (codes "sends ") Send run ∷ count_text (codes "ticks ") Tick run ∷ []

-- the answer
abbrev pub answer_counts : List Event → Answer
answer_counts run = record { lines = count_lines run; outcome = Done }
''')
put('crates/dc_run_count/README.md','''# `dc_run_count`

The engine of `count`: how many events of each kind a trace tells, as [dc_run](../dc_run/README.md) keeps it.

| Promise | Function | Clause |
|---|---|---|
| the four counts of the run are told, one a line | `Count::tell` | unnamed |

**Not said.** Of files which bytes they have.

**Use.** `run(rt, alloc, &COUNT, &mut given, sink)`, as `count` in [dc429](../dc429/src/main.rt).
''')
sub('crates.txt',('\n# The program\n','dc_run_count: arrayvec dc_answer dc_run dc_device dc_document dc_tables dc_toml dc_build dc_event dc_print\n\n# The program\n'),(' dc_run_bench dc_command',' dc_run_bench dc_run_count dc_command'))
A='crates/dc_command/src/asked.rt'
sub(A,('    /// Audit the trace on standard input','''    /// Count the events of the trace on standard input, of the concentrator of the tables in a file.
    Count {
        /// The path of the tables.
        tables: &'a str,
    },
    /// Audit the trace on standard input'''),
 ('/// What the matches of `report` ask.','''/// What the matches of `count` ask.
fn count_in<'a>(matches: &ArgMatches<'a>) -> Option<Order<'a>>
    ensures { IfSome result (AsksBy (codes "count") (rows_of (found_of matches.now))) }
{
    let tables = matches.get_str("TABLES")?;
    Some(Order::Count { tables })
}

/// What the matches of `report` ask.'''),
 ('        "report" => report_in(matches),','        "count" => count_in(matches),\n        "report" => report_in(matches),'))
sub('crates/dc_command/src/known.rt',('/// The command `report`.','''/// The command `count`.
fn count<'a>(alloc: Global) -> Result<Command<'a>, Error>
    ensures { IfOk result (IsRead (tables_app (codes "count"))) }
{
    on_tables(
        alloc,
        "count",
        "Counts the events of the trace on standard input by their kinds",
    )
}

/// The command `report`.'''),('            .subcommand(margins(alloc)?)?,','            .subcommand(margins(alloc)?)?\n            .subcommand(count(alloc)?)?,'))
sub('crates/dc_command/specs/Program.antt',('    with_subcommand (with_subcommand (with_subcommand','    with_subcommand (with_subcommand (with_subcommand (with_subcommand'),('(optional_app (codes "margins")).top\n','(optional_app (codes "margins")).top) (tables_app (codes "count")).top\n'))
sub('crates/dc_command/specs/Asked.antt',('Replay, Audit, Bench}','Replay, Audit, Bench, Count}'),('AsksBy name rows (Report tables','AsksBy name rows (Count tables) = (name ≡ codes "count") × (first_of (codes "TABLES") rows ≡ Some tables.now)\nAsksBy name rows (Report tables'))
put('crates/dc_command/proofs/asked/count_in/Answers.antt',open('crates/dc_command/proofs/asked/find_in/Answers.antt').read().replace('find_in','count_in'))
M='crates/dc429/src/main.rt'
sub(M,('use dc_answer::Exit;','use dc_answer::{End, Exit, With, run as run_engine};'),('use dc_run_margins::','use dc_run_count::COUNT;\nuse dc_run_margins::'),
 ('        Order::Audit {','''        Order::Count { tables } => {
            let mut tables = ReadSource::new(fs::open(rt, tables)?);
            let mut trace = ReadSource::new(rt.reader());
            let mut given = With {
                first: &mut tables,
                rest: With {
                    first: &mut trace,
                    rest: End,
                },
            };
            Ok(run_engine(rt, rt.alloc(), &COUNT, &mut given, &mut sink))
        }
        Order::Audit {'''))
