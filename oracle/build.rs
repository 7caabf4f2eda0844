//! Takes document 000 as it was published, with E, S and C in the place of `exp`, `sin` and `cos`, and nothing else changed. Of what
//! stands inside one of its functions, hooks are given the text itself, and of its runs a copy that can end sooner.

use std::path::Path;
use std::{env, fs};

/// The text to find, what stands in its place, and how often it is found.
const EDITS: [(&str, &str, usize); 4] = [
    (".exp()", ".stand_in_exp()", 5),
    (".sin()", ".stand_in_sin()", 1),
    (".cos()", ".stand_in_cos()", 3),
    (
        "use std::f64::consts::{PI, SQRT_2};\n",
        "use crate::stand_in::StandIn;\nuse std::f64::consts::{PI, SQRT_2};\n",
        1,
    ),
];

/// Appended to the module: what opens its private functions to the jobs.
const HOOKS: &str = "src/hooks.rs.txt";

/// A piece of the module that hooks have a copy of, since no function of the module is just that.
struct Piece {
    /// What stands in a hook in the piece's place.
    name: &'static str,
    from: &'static str,
    through: &'static str,
    /// The text to find in the copy, once, and what stands there in its place.
    edits: &'static [(&'static str, &'static str)],
}

const fn piece(name: &'static str, from: &'static str, through: &'static str) -> Piece {
    Piece {
        name,
        from,
        through,
        edits: &[],
    }
}

const PIECES: [Piece; 8] = [
    piece(
        "@base_units@",
        "// Convert to base units",
        "let is_underdamped = alpha * alpha < omega0_sq;",
    ),
    piece(
        "@fault_current@",
        "let t_fault_s",
        "let i_fault_ka = i_fault_ka * fault_type_factor;",
    ),
    piece("@if_oscillating@", "let omega_d", "if omega_d > 1e-12 {"),
    piece("@if_two_roots@", "let disc", "if (s1 - s2).abs() > 1e-12 {"),
    piece(
        "@decay@",
        "let t_after_clear_s",
        "if state.fault_current_ka < 1e-6 {\n                    state.fault_current_ka = 0.0;\n                }",
    ),
    // The runs whole, but for a name of their own and a loop that may end sooner. The results are then the variables.
    Piece {
        name: "@first_steps_of_fault@",
        from: FAULT_RUN.0,
        through: FAULT_RUN.1,
        edits: &[
            (
                "simulate_fault(&self, fault: &DcFaultEvent)",
                "first_steps_of_fault(&self, fault: &DcFaultEvent, steps: usize)",
            ),
            LOOP,
            (
                "if fault_cleared {\n                clearing_time_ms\n            } else {\n                self.duration_ms\n            }",
                "clearing_time_ms",
            ),
        ],
    },
    // The fault run again, which shows the state of every step, recorded or not, and returns the variables themselves.
    Piece {
        name: "@watched_fault@",
        from: FAULT_RUN.0,
        through: FAULT_RUN.1,
        edits: &[
            (
                "simulate_fault(&self, fault: &DcFaultEvent) -> Result<DcTransientResult, String> {",
                WATCHED,
            ),
            LOOP,
            ("let mut states = Vec::with_capacity(total_steps.min(10000));\n", ""),
            ("let record_interval = (total_steps / 5000).max(1);\n", ""),
            (
                "if step % record_interval == 0 || step == total_steps - 1 {\n                states.push(state.clone());\n            }",
                "after_step(&state, fault_cleared);",
            ),
            RESULTS,
        ],
    },
    Piece {
        name: "@first_steps_of_switching@",
        from: "pub fn simulate_switching(",
        through: "fault_cleared: true,\n        })\n    }",
        edits: &[
            ("simulate_switching(", "first_steps_of_switching("),
            ("open: bool,\n", "open: bool,\n        steps: usize,\n"),
            LOOP,
        ],
    },
];

/// The loop over a run's steps.
const LOOP: (&str, &str) = (
    "for step in 0..total_steps {",
    "for step in 0..total_steps.min(steps) {",
);

/// Where the fault run begins and ends.
const FAULT_RUN: (&str, &str) = (
    "pub fn simulate_fault(",
    "fault_cleared,\n        })\n    }",
);

const WATCHED: &str = "watched_fault(
        &self,
        fault: &DcFaultEvent,
        steps: usize,
        mut after_step: impl FnMut(&DcTransientState, bool),
    ) -> Result<FaultVariables, String> {";

/// What the fault run returns, and its variables in that place.
const RESULTS: (&str, &str) = (
    "Ok(DcTransientResult {
            states,
            peak_fault_current_ka: peak_fault_ka,
            fault_clearing_time_ms: if fault_cleared {
                clearing_time_ms
            } else {
                self.duration_ms
            },
            energy_dissipated_mj: energy_mj,
            voltage_recovery_time_ms,
            max_di_dt,
            fault_cleared,
        })",
    "Ok(FaultVariables {
            state,
            peak_fault_ka,
            max_di_dt,
            energy_mj,
            fault_cleared,
            clearing_time_ms,
            voltage_recovery_time_ms,
            prev_fault_current_ka,
            fault_active,
        })",
);

fn edited(published: &str) -> String {
    let mut text = published.to_string();
    for (find, replace, times) in EDITS {
        let found = text.matches(find).count();
        assert!(
            found == times,
            "{find:?} is found {found} times, and not {times}"
        );
        text = text.replace(find, replace);
    }
    // Undone, the edits give back what was published: nothing else was changed.
    let mut undone = text.clone();
    for (find, replace, times) in EDITS.into_iter().rev() {
        assert!(
            undone.matches(replace).count() == times,
            "{replace:?} is there without an edit"
        );
        undone = undone.replace(replace, find);
    }
    assert!(undone == published, "the edits change more than they say");
    text
}

fn assert_once(text: &str, words: &str) {
    let found = text.matches(words).count();
    assert!(found == 1, "{words:?} is found {found} times, and not once");
}

impl Piece {
    /// The text from `from` through `through`, each of which the module has once, with the piece's edits.
    fn text(&self, module: &str) -> String {
        assert_once(module, self.from);
        assert_once(module, self.through);
        let start = module.find(self.from).expect("it is found");
        let last = module.find(self.through).expect("it is found");
        assert!(
            start < last,
            "{:?} stands before {:?}",
            self.through,
            self.from
        );
        let mut text = module[start..last + self.through.len()].to_string();
        for (find, replace) in self.edits {
            assert_once(&text, find);
            text = text.replace(find, replace);
        }
        text
    }
}

fn with_pieces(hooks: &str, module: &str) -> String {
    let mut text = hooks.to_string();
    for piece in PIECES {
        assert!(text.contains(piece.name), "no hook has {}", piece.name);
        text = text.replace(piece.name, &piece.text(module));
    }
    assert!(!text.contains('@'), "a hook has a piece that is not known");
    text
}

/// Where the published Rust is looked for if `WENGLUI_SOURCE` names no folder: beside the repository.
const FOLDER: &str = "shared/docs/src";

/// In that folder.
const PUBLISHED: &str = "src/network/dc_switching.rs";

/// Ends the build with plain words, since there is nothing to compare with.
fn missing(folder: &Path, named: bool, error: std::io::Error) -> ! {
    let by = if named {
        "the folder that WENGLUI_SOURCE names"
    } else {
        "the folder ../shared/docs/src beside the repository"
    };
    eprintln!("The oracle is built from the published Rust, the file {PUBLISHED} in {by}.");
    eprintln!("It cannot be read there: {}: {error}", folder.join(PUBLISHED).display());
    eprintln!("If it is in another folder, name that one, by its whole path, in the environment variable WENGLUI_SOURCE.");
    std::process::exit(1)
}

fn main() {
    println!("cargo:rerun-if-env-changed=WENGLUI_SOURCE");
    let named = env::var("WENGLUI_SOURCE").ok();
    let own = env::current_dir().expect("cargo names a folder");
    let folder = match &named {
        Some(folder) => own.join(folder),
        None => own.ancestors().nth(2).expect("a repository in a folder").join(FOLDER),
    };
    let source = folder.join(PUBLISHED);
    println!("cargo:rerun-if-changed={}", source.display());
    println!("cargo:rerun-if-changed={HOOKS}");
    println!("cargo:rerun-if-changed=build.rs");
    let published = fs::read_to_string(&source).unwrap_or_else(|e| missing(&folder, named.is_some(), e));
    let hooks = fs::read_to_string(HOOKS).unwrap_or_else(|e| panic!("{HOOKS}: {e}"));

    // A file of its own, since a text that begins with comments on its module cannot be included.
    let out = env::var("OUT_DIR").expect("cargo names a folder");
    let module = Path::new(&out).join("dc_switching.rs");
    let text = edited(&published);
    let hooks = with_pieces(&hooks, &text);
    fs::write(&module, text + &hooks).expect("the module is written");
    fs::write(
        Path::new(&out).join("published.rs"),
        format!("#[path = {module:?}]\npub mod dc_switching;\n"),
    )
    .expect("the module is declared");
}
