//! Words that can be followed, and words that cannot.

use super::*;

fn of(words: &str) -> Result<Request, String> {
    match read(words.split_whitespace().map(OsString::from)) {
        Ok(request) => Ok(request),
        Err(Failure::Words(sentence)) => Err(sentence),
        Err(failure) => panic!("{failure:?}"),
    }
}

fn plan_of(file: &str, table: Option<u32>) -> Plan {
    Plan {
        file: file.into(),
        table,
        edition: Edition::First,
        marks: false,
        all: false,
        ascii: false,
        form: Form::Text,
    }
}

fn font_of(file: impl Into<PathBuf>, directory: Option<&str>) -> Request {
    Request::Font(Font {
        file: file.into(),
        edition: Edition::First,
        directory: directory.map(PathBuf::from),
        form: Form::Text,
    })
}

#[test]
fn requests() {
    let sample = |which, directory: Option<&str>| {
        Request::Sample(Sample {
            which,
            edition: Edition::First,
            directory: directory.map(PathBuf::from),
            ascii: false,
        })
    };
    assert_eq!(of(""), Ok(sample(None, None)));
    assert_eq!(of("sample"), Ok(sample(None, None)));
    for words in ["sample -o D", "sample --output D", "sample --output=D"] {
        assert_eq!(of(words), Ok(sample(None, Some("D"))));
    }
    for (words, which, directory) in [
        ("sample sets", Which::Sets, None),
        ("sample rows", Which::Rows, None),
        ("sample lookups", Which::Lookups, None),
        ("sample -o D marks", Which::Marks, Some("D")),
    ] {
        assert_eq!(of(words), Ok(sample(Some(which), directory)));
    }
    assert_eq!(of("plan f"), Ok(Request::Plan(plan_of("f", None))));
    assert_eq!(of("plan f 0x1F"), Ok(Request::Plan(plan_of("f", Some(31)))));
    assert_eq!(of("plan -- -f"), Ok(Request::Plan(plan_of("-f", None))));
    let pair = |table| {
        Request::Pair(Pair {
            file: "f".into(),
            table,
            glyphs: [65_535, 0],
            form: Form::Text,
        })
    };
    assert_eq!(of("pair f 3 65535 0"), Ok(pair(Some(3))));
    assert_eq!(of("pair f 65535 0"), Ok(pair(None)));
    let mark = |table| {
        Request::Mark(Mark {
            file: "f".into(),
            table,
            mark: 65_535,
            base: 0,
            form: Form::Text,
        })
    };
    assert_eq!(of("mark f 3 65535 0"), Ok(mark(Some(3))));
    assert_eq!(of("mark f 65535 0"), Ok(mark(None)));
    let marks = Plan {
        marks: true,
        ..plan_of("f", Some(3))
    };
    assert_eq!(of("plan --marks f 3"), Ok(Request::Plan(marks)));
    let dump = |object, all| {
        Request::Dump(Dump {
            file: "-".into(),
            object,
            marks: false,
            all,
            form: Form::Text,
        })
    };
    assert_eq!(of("dump -"), Ok(dump(None, false)));
    assert_eq!(of("dump - 7 --all"), Ok(dump(Some(7), true)));
    assert_eq!(of("font f"), Ok(font_of("f", None)));
    assert_eq!(of("font f -o D"), Ok(font_of("f", Some("D"))));
    assert_eq!(of("--version"), Ok(Request::Version));
}

/// A store that goes to standard output has it for itself.
#[test]
fn forms() {
    for (words, form) in [
        ("plan f", Form::Text),
        ("plan f --json", Form::Json),
        ("pair f 1 2 -q", Form::Quiet),
        ("font f --quiet", Form::Quiet),
        ("dump f 7 --quiet", Form::Quiet),
        ("split f -o g --json", Form::Json),
        ("split f -o -", Form::Quiet),
        ("split - -o ./-", Form::Text),
        ("compact f --in-place --json", Form::Json),
        ("compact f -o -", Form::Quiet),
    ] {
        assert_eq!(of(words).unwrap().form(), form, "{words}");
    }
}

/// Tables are cut by the first edition, unless another one is asked for.
#[test]
fn editions() {
    let edition = |words: &str| match of(words).unwrap() {
        Request::Sample(request) => request.edition,
        Request::Plan(request) => request.edition,
        Request::Split(request) => request.plan.edition,
        Request::Font(request) => request.edition,
        request => panic!("{request:?}"),
    };
    for words in ["", "sample", "plan f", "split f -o g", "font f"] {
        assert_eq!(edition(words), Edition::First, "{words}");
    }
    for command in ["sample", "plan f", "split f -o g", "font f"] {
        let words = format!("{command} --edition 1");
        assert_eq!(edition(&words), Edition::First, "{words}");
        for words in ["--edition 2", "--edition=2"] {
            let words = format!("{command} {words}");
            assert_eq!(edition(&words), Edition::Second, "{words}");
        }
        for other in [
            "0",
            "3",
            "02",
            "+1",
            "0x1",
            "4294967295",
            "second",
            "--json",
        ] {
            let words = format!("{command} --edition {other}");
            let what = format!("wants the edition to be 1 or 2, and \"{other}\" is neither");
            assert!(of(&words).unwrap_err().contains(&what), "{words}");
        }
    }
}

#[test]
fn splits() {
    let split = |output, check| {
        Request::Split(Split {
            plan: plan_of("f", Some(2)),
            output,
            check,
            compact: false,
        })
    };
    let to_file = || Output::File("g".into());
    assert_eq!(of("split f 2 -o g"), Ok(split(to_file(), false)));
    assert_eq!(of("split -o g --check f 2"), Ok(split(to_file(), true)));
    assert_eq!(
        of("split f 2 --in-place"),
        Ok(split(Output::InPlace, false))
    );
    let compacted = of("split f 2 -o g --compact").unwrap();
    assert!(matches!(
        compacted,
        Request::Split(Split { compact: true, .. })
    ));
}

#[test]
fn compactions() {
    let compact = |output, roots: &[u32]| {
        Request::Compact(Compact {
            file: "f".into(),
            roots: roots.to_vec(),
            output,
            all: false,
            form: Form::Text,
        })
    };
    let to_file = || Output::File("g".into());
    assert_eq!(of("compact f -o g"), Ok(compact(to_file(), &[])));
    let roots = "compact --root 7 f --root=0x7 -o g --root 4294967295";
    assert_eq!(of(roots), Ok(compact(to_file(), &[7, 7, u32::MAX])));
    let in_place = of("compact f --root 0 --in-place");
    assert_eq!(in_place, Ok(compact(Output::InPlace, &[0])));
}

#[test]
fn helps() {
    for words in ["-h", "--help", "help"] {
        assert_eq!(of(words), Ok(Request::Help(None)));
    }
    for words in ["help font", "font -h", "font --help", "font a b c --help"] {
        assert_eq!(of(words), Ok(Request::Help(Some(Name::Font))));
    }
}

/// Each gets a sentence that says where to read more.
#[test]
fn words_that_cannot_be_followed() {
    for (words, what) in [
        ("pln", "did you mean \"plan\"?"),
        ("verify", "no command \"verify\""),
        ("--quick", "no command \"--quick\""),
        ("help verify", "no command \"verify\""),
        ("plan", "plan wants FILE"),
        ("plan f 0 1", "no use for the word \"1\""),
        ("plan f x", "\"x\" is none"),
        ("plan f 4294967296", "from 0 to 4294967295"),
        ("plan f 0x", "\"0x\" is none"),
        ("plan f 0x+1", "\"0x+1\" is none"),
        ("plan f -1", "has no option -1"),
        ("plan f -o g", "has no option -o"),
        ("plan f --all=1", "takes --all without a value"),
        ("split f", "add -o FILE"),
        ("split f -o", "wants something behind -o"),
        ("plan f --edition", "wants something behind --edition"),
        ("pair f 0 1 --edition 2", "has no option --edition"),
        ("dump f --edition 2", "has no option --edition"),
        ("plan f --edition 1 --edition 2", "takes --edition once"),
        ("split f -o g -o h", "takes -o once"),
        ("split f -o g --in-place", "not both"),
        ("split f -o - --json", "not both"),
        ("split - --in-place", "cannot write over standard input"),
        (
            "split f -o g --compact=1",
            "takes --compact without a value",
        ),
        ("plan f --compact", "has no option --compact"),
        ("compact f", "add -o FILE"),
        ("compact f 2 -o g", "no use for the word \"2\""),
        ("compact f -o g --root", "wants something behind --root"),
        ("compact f -o g --root 1,2", "wants ROOT to be a number"),
        ("compact f -o g --edition 2", "has no option --edition"),
        ("compact - --in-place", "cannot write over standard input"),
        ("plan f --json --quiet", "takes --json or --quiet, not both"),
        ("sample --quiet", "has no option --quiet"),
        ("pair f 0", "pair wants G2"),
        ("pair f 0 1 2 3", "no use for the word \"3\""),
        ("pair f 0 1 65536", "from 0 to 65535"),
        ("font", "font wants FILE"),
        ("mark f 0", "mark wants BASE"),
        (
            "mark f 0 65536 1",
            "wants MARK to be a number from 0 to 65535",
        ),
        ("font f --marks", "has no option --marks"),
        (
            "sample x",
            "has sets, rows, marks and lookups, and no \"x\"",
        ),
        ("sample sets x", "no use for the word \"x\""),
    ] {
        let sentence = of(words).unwrap_err();
        assert!(sentence.contains(what), "{words}: {sentence}");
        assert!(sentence.contains("\"splitter help"), "{words}: {sentence}");
    }
}

#[cfg(unix)]
#[test]
fn names_that_are_not_text() {
    use std::os::unix::ffi::OsStringExt;
    let name = OsString::from_vec(vec![b'-', 0xFF]);
    let request = read(["font".into(), name.clone()]).unwrap();
    assert_eq!(request, font_of(name, None));
}
