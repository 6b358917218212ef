//! The help texts.

pub const PROGRAM: &str = "\
flosquedo: verifies, explains and runs small Java jobs (bundles of class files)

  flosquedo check PATH...                      says in plain words what is wrong with a job
  flosquedo job PATH Class.method [ARG...]     checks a job and runs a static method of it
  flosquedo bundle DIR OUT                     makes a bundle from the class files below DIR
  flosquedo verify FILE...                     prints verdicts as numbers
  flosquedo run FILE CLASS METHOD BUDGET HEAP [ARG...]
                                               runs by indices and prints numbers

`flosquedo COMMAND --help` tells more. Exit status: 0 for yes, 1 for a refusal,
2 for a file or a word that cannot be used.
";

pub const VERIFY: &str = "\
flosquedo verify FILE...

Prints one line for each bundle file, its parts parted by tabs:
  FILE  verdict  class  method  place
Verdict 0 is accepted; 65535 stands where no class or method is named.
Exit status: 0 if all are accepted, 1 if one is refused, 2 if one cannot be read
or is over 65,536 bytes (which is verdict 1 too).
";

pub const RUN: &str = "\
flosquedo run FILE CLASS METHOD BUDGET HEAP [ARG...]

Runs a static method by class and method index, with a budget of steps (at most
1000000) and a heap of so many cells (at most 16384), all 0. Prints one line, its
parts parted by tabs:
  refused  number                              (20, 22 or 23)
  refused  21  verdict  class  method  place
  end  value  steps  cells  hash
The end is returned, uncaught, steps, heap, depth or stuck; the value is signed;
the hash is FNV-1a (64 bits) over the used cells, 4 little-endian bytes each.
Exit status: 0 for an end, 1 for a refusal, 2 for an unusable file or number.
";

pub const CHECK: &str = "\
flosquedo check PATH...

Says for each job whether it is accepted, or what is wrong, where, what the rule is
and what usually causes it. A PATH is a bundle file, a .class file (all those given
make one bundle, sorted by name) or a directory (the .class files below it make one).
Exit status: 0 if all are accepted, 1 if one is refused, 2 if one cannot be read.
";

pub const BUNDLE: &str = "\
flosquedo bundle DIR OUT

Writes the .class files below DIR, sorted by name, end to end to the file OUT. At most
16 classes and 65,536 bytes: otherwise nothing is written. It does not judge the
classes: use `flosquedo check OUT`.
Exit status: 0 if the bundle is written, else 2.
";

pub const JOB: &str = "\
flosquedo job PATH Class.method [ARG...]

Checks a job (a bundle file, a .class file or a directory of them) and runs one of
its static methods on int arguments, with 1,000,000 steps and 16,384 heap cells.
Tells in words how it ended. A class in a package is written a.b.Class.
Exit status: 0 if it returned, 1 if it is refused or ended otherwise, 2 if the path,
the method or an argument cannot be used.
";
