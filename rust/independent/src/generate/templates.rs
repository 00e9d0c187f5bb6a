//! Statements with one fault each, by its reason. A reason begins with the number that it is refused by.
//!
//! Lines are parted by `|`, a line's number stands before a blank, and `!` stands before the line at fault. A small
//! letter is filled in by `faults`: n m p q statement numbers that are free, u one that no statement has, d a digit from
//! 1 to 9, z and y constants over k digits (y by zeros at its front), o and c more than sixteen parentheses, b blanks of
//! more than a card, x an expression; a line f is no line or some harmless ones.

/// Where the lines go in a deck.
#[derive(Clone, Copy, PartialEq, Eq)]
pub enum Where {
    Anywhere,
    /// At the front or before END, so that no range lies around them.
    Outside,
    InsteadOfEnd,
}

use Where::*;

/// A reason, where its lines go, and lines to choose from.
pub type Template = (&'static str, Where, &'static [&'static str]);

pub const STATEMENTS: &[Template] = &[
    ("6 a blank card", Anywhere, &["!"]),
    ("6 a number alone", Anywhere, &["!n "]),
    ("6 blank cards", Anywhere, &["!b", "!n b"]),
    ("10 GO TO", Anywhere, &["!GOTO", "!GOTOMINE", "!GOTOn,", "!GOTO-n", "!GOTOn.", "!GOTO(n)"]),
    ("10 one exit", Anywhere, &["!GOTO(n),MINE", "!n GOTO(n),MORE"]),
    ("10 over ten exits", Anywhere, &["!GOTO(n,n,n,n,n,n,n,n,n,n,n),MINE", "!GOTO(n,m,n,m,n,m,n,m,n,m,n,m),MINE"]),
    ("10 computed GO TO", Anywhere, &["!GOTO(n,n)MINE", "!GOTO(n,n),", "!GOTO(n,n),5", "!GOTO(n,,n),MINE", "!GOTO(n,n),MINE(1)", "!GOTO(n,MINE),MINE", "!GOTO(),MINE"]),
    ("10 IF's exits", Anywhere, &["!IF(x)n,n", "!IF(x)n", "!IF(x)n,n,n,n", "!IF(x)n,,n", "!IF(x),n,n", "!IF(x)MINE,n,n", "!IF(x)"]),
    ("10 IF's expression", Anywhere, &["!IF()n,n,n", "!IF(MINE+)n,n,n", "!IF(MINEn,n,n", "!IFMINE)n,n,n", "!IF(2**2)n,n,n", "!IF((MINE)n,n,n"]),
    ("10 DO", Anywhere, &["!DOnMINE=1,", "!DOnMINE=1,2,3,4", "!DOnMINE=1,-2", "!DOnMINE=1,MORE(1)", "!DOnMINE(2)=1,2", "!DOnMINE=1,2+3", "!DOMINE=1,2", "!DOnMINE,1,2", "!DOnMINE=,2", "!DOn=1,2"]),
    ("10 DIMENSION", Anywhere, &["!DIMENSION", "!DIMENSIONLADDER", "!DIMENSIONLADDER()", "!DIMENSIONLADDER(MINE)", "!DIMENSIONLADDER(2,2,2)", "!DIMENSIONLADDER(2)MAST(2)", "!DIMENSIONLADDER(2),", "!DIMENSIONLADDER(-2)"]),
    ("10 subscript", Anywhere, &["!MINE=LADDER(1+MORE)", "!MINE=LADDER(MORE*2)", "!LADDER(2*3)=MINE", "!MINE=LADDER(+1)", "!MINE=LADDER(-1)", "!MINE=LADDER(MORE+MORE)", "!MINE=LADDER(LADDER(1))", "!LADDER(1,2,3)=1", "!MINE=LADDER()", "!MINE=LADDER(MORE+1+1)", "!MINE=LADDER(2*MORE*2)", "!LADDER((1))=2"]),
    ("10 operators", Anywhere, &["!MINE=2*-3", "!MINE=x**2", "!MINE=x+", "!MINE=*2", "!MINE=--2", "!MINE=2//3", "!MINE=", "!MINE=2$$3", "!MINE=x+-2", "!MINE=2MORE"]),
    ("10 parentheses", Anywhere, &["!MINE=(2", "!MINE=2)", "!MINE=()", "!MINE=(x))", "!MINE=o1", "!MINE=(2)(3)", "!MINE=2(3)", "!MINE)=2"]),
    ("10 no form", Anywhere, &["!MINE", "!=2", "!2=MINE", "!MINE=2=3", "!MINE+1=2", "!2MINE=3", "!.", "!MINE=2.5", "!5", "!MINE,MORE=2"]),
    ("10 a word with a tail", Anywhere, &["!STOP5", "!PAUSE", "!CONTINUE5", "!END5", "!STOPSTOP", "!END(1)", "!CONTINU"]),
    ("11 over six characters", Anywhere, &["!MINEOWN=1", "!MINE=MINEOWN", "!DOnMINEOWN=1,2", "!DOnMINE=1,MINEOWN", "!GOTO(n,n),MINEOWN", "!IF(MINEOWN)n,n,n", "!DIMENSIONLADDERS(2)", "!MINE=LADDERS(1)", "!MINE=LADDER(2*MINEOWN)", "!LADDERS(1)=1", "!IFn=ABCDEFGHIJKLMNOPQRSTUVWXYZ", "!MINE=I234567"]),
    ("11 first letter", Anywhere, &["!A=1", "!MINE=H", "!DOnO=1,2", "!DOnMINE=Z,2", "!GOTO(n,n),O", "!IF(X)n,n,n", "!DIMENSIONA(2)", "!MINE=H(1)", "!MINE=LADDER(H+1)", "!Z(1)=1", "!DOnMINE=1", "!DO=4", "!ENDI=2", "!GOTO5=3", "!GOTO(1,2)=3", "!STOP=x", "!DIMENSIONI(3)=4"]),
    ("12 in an expression", Anywhere, &["!MINE=z", "!MINE=y", "!MINE=x+z*2", "!IF(MINE-z)n,n,n", "!MINE=(1+(y))"]),
    ("12 in a subscript", Anywhere, &["!MINE=LADDER(z)", "!MINE=LADDER(y)", "!LADDER(z*MINE)=2", "!MINE=LADDER(MORE-z)", "!MINE=LADDER(MORE+y)", "!MINE=LADDER(1,2*MORE+z)", "!MINE=LADDER(y*MORE,2)"]),
    ("12 in a DO", Anywhere, &["!DOnMINE=z,2", "!DOnMINE=1,z", "!DOnMINE=1,2,z", "!DOnMINE=y,2", "!DOnMINE=1,y,2"]),
    ("12 in a DIMENSION", Anywhere, &["!DIMENSIONLADDER(z)", "!DIMENSIONLADDER(2,z)", "!DIMENSIONLADDER(y)", "!DIMENSIONLADDER(2),MAST(z,2)"]),
    ("13 a number 0", Anywhere, &["!GOTO0", "!GOTO000000000000", "!GOTO(n,0),MINE", "!IF(x)0,n,n", "!IF(x)n,00,n", "!IF(x)n,n,0", "!DO0MINE=1,2", "!GOTO(0,n,n),MINE"]),
    ("13 a number over 99999", Anywhere, &["!GOTO100000", "!GOTO4294967297", "!GOTO18446744073709551617", "!GOTO(n,100000),MINE", "!IF(x)99999999,n,n", "!IF(x)n,000100000,n", "!IF(x)n,n,429496729600007", "!DO100007MINE=1,2"]),
    ("14 in an assignment", Anywhere, &["!MINE=oxc", "!MINE=x+o1c*2", "!MINE=(2)+oMOREc"]),
    ("14 in an IF", Anywhere, &["!IF(oxc)n,n,n", "!IF(MINE-o2c)n,n,n"]),
    ("15 rows 0", Anywhere, &["!DIMENSIONLADDER(0)", "!DIMENSIONLADDER(0,2)", "!DIMENSIONMAST(2),LADDER(0)"]),
    ("15 columns 0", Anywhere, &["!DIMENSIONLADDER(2,0)", "!DIMENSIONMAST(2),LADDER(9,0)"]),
    ("15 seen as a plain name", Anywhere, &["LADDER=1|f|!DIMENSIONLADDER(2)", "MINE=LADDER|!DIMENSIONLADDER(2)", "DOnLADDER=1,2|n CONTINUE|!DIMENSIONLADDER(2)", "IF(LADDER)n,n,n|n CONTINUE|!DIMENSIONLADDER(2)"]),
    ("15 seen in a subscript", Anywhere, &["DIMENSIONMAST(2)|MAST(LADDER)=1|f|!DIMENSIONLADDER(2)", "DIMENSIONMAST(2)|MINE=MAST(2*LADDER)|!DIMENSIONLADDER(2)"]),
    ("15 seen as an array", Anywhere, &["DIMENSIONLADDER(2)|f|!DIMENSIONLADDER(2)", "DIMENSIONLADDER(2)|!DIMENSIONMAST(1),LADDER(2,2)"]),
    ("15 twice in a DIMENSION", Anywhere, &["!DIMENSIONLADDER(2),LADDER(2)", "!DIMENSIONLADDER(2),MAST(2),LADDER(2,3)"]),
    ("15 ends in F", Anywhere, &["!DIMENSIONLEAF(2)", "!DIMENSIONIF(3)", "!DIMENSIONLADDER(2),MF(2,2)"]),
    ("16 undeclared", Anywhere, &["!MINE=LADDER(1)", "!LADDER(1)=2", "!IF(1,2)=3", "!MINE=LOGF(2)", "!IF(LADDER(2))n,n,n", "!MINE=2+MAST(MORE,1)"]),
    ("16 a plain name", Anywhere, &["LADDER=1|!MINE=LADDER(1)", "LADDER=1|f|!LADDER(1)=2"]),
    ("16 declared later", Anywhere, &["!MINE=LADDER(1)|DIMENSIONLADDER(2)", "!LADDER(1)=2|f|DIMENSIONLADDER(2)"]),
    ("16 one subscript for two", Anywhere, &["DIMENSIONLADDER(2,2)|!MINE=LADDER(1)", "DIMENSIONLADDER(2,1)|!LADDER(1)=3"]),
    ("16 two subscripts for one", Anywhere, &["DIMENSIONLADDER(2)|!MINE=LADDER(1,1)", "DIMENSIONLADDER(2)|f|!LADDER(1,1)=3"]),
    ("16 a bare target", Anywhere, &["DIMENSIONLADDER(2)|f|!LADDER=1"]),
    ("16 bare in an expression", Anywhere, &["DIMENSIONLADDER(2)|!MINE=x+LADDER", "DIMENSIONLADDER(2)|!IF(LADDER)n,n,n", "DIMENSIONLADDER(2)|!LADDER(1)=LADDER"]),
    ("16 bare in a subscript", Anywhere, &["DIMENSIONLADDER(2)|!MINE=LADDER(LADDER)", "DIMENSIONLADDER(2),MAST(2)|!MAST(LADDER+1)=2"]),
    ("16 bare after a computed GO TO", Anywhere, &["DIMENSIONLADDER(2)|!GOTO(n,n),LADDER"]),
    ("16 bare as a DO's variable", Anywhere, &["DIMENSIONLADDER(2)|!DOnLADDER=1,2"]),
    ("16 bare as a DO's parameter", Anywhere, &["DIMENSIONLADDER(2)|!DOnMINE=LADDER,2", "DIMENSIONLADDER(2)|!DOnMINE=1,LADDER", "DIMENSIONLADDER(2)|!DOnMINE=1,2,LADDER"]),
    ("20 END missing", InsteadOfEnd, &["!CONTINUE", "!MINE=x", "!STOP", "!DIMENSIONLADDER(2)"]),
    ("20 END not last", Anywhere, &["!END", "!END|f", "f|!END|END"]),
    ("21 defined twice", Outside, &["n CONTINUE|f|!n CONTINUE", "n MINE=x|!n MINE=x|n CONTINUE"]),
    ("21 on DIMENSION", Anywhere, &["!n DIMENSIONLADDER(2)"]),
    ("21 on END", InsteadOfEnd, &["!n END"]),
    ("22 GO TO", Outside, &["!GOTOu", "!n GOTOu"]),
    ("22 computed GO TO", Outside, &["!GOTO(n,u),MINE|n CONTINUE", "n CONTINUE|!GOTO(u,n,n),MINE"]),
    ("22 IF", Outside, &["!IF(x)u,n,n|n CONTINUE", "!IF(x)n,u,n|n CONTINUE", "!IF(x)n,n,u|n CONTINUE"]),
    ("22 DO", Outside, &["!DOuMINE=1,2|CONTINUE"]),
    ("23 last statement before it", Outside, &["n CONTINUE|f|!DOnMINE=1,2", "n MINE=x|!DOnMORE=1,2|f"]),
    ("23 last statement itself", Outside, &["!n DOnMINE=1,2|f"]),
    ("23 last statement a GO TO", Outside, &["!DOnMINE=1,2|f|n GOTOm|m CONTINUE", "m CONTINUE|!DOnMINE=1,2|n GOTOm"]),
    ("23 last statement a computed GO TO", Outside, &["!DOnMINE=1,2|f|n GOTO(m,m),MORE|m CONTINUE"]),
    ("23 last statement an IF", Outside, &["!DOnMINE=1,2|f|n IF(x)m,m,m|m CONTINUE"]),
    ("23 last statement a DO", Outside, &["!DOnMINE=1,2|f|n DOmMORE=1,2|m CONTINUE"]),
    ("23 last statement STOP", Outside, &["!DOnMINE=1,2|f|n STOP"]),
    ("23 ranges cross", Outside, &["DOnMINE=1,2|f|!DOmMORE=1,2|n CONTINUE|f|m CONTINUE", "DOpLAST=1,2|DOnMINE=1,2|!DOpMORE=1,2|n CONTINUE|p CONTINUE"]),
    ("23 nine deep", Outside, &["DOnI0=1,1|DOnI1=1,1|DOnI2=1,1|DOnI3=1,1|DOnI4=1,1|DOnI5=1,1|DOnI6=1,1|DOnI7=1,1|!DOnI8=1,1|n CONTINUE",
        "DOmI0=1,1|f|DOmI1=1,1|DOpI2=1,1|DOpI3=1,1|DOpI4=1,1|DOnI5=1,1|DOnI6=1,1|DOnI7=1,1|f|!DOnI8=1,1|n CONTINUE|p CONTINUE|m CONTINUE"]),
    ("25 set by an assignment", Outside, &["DOnMINE=1,2|f|!MINE=x|n CONTINUE", "DOnMINE=1,2|DOmMORE=1,2|!MINE=x|m CONTINUE|n CONTINUE"]),
    ("25 set by the last statement", Outside, &["DOnMINE=1,2|f|!n MINE=x", "DOnMINE=1,2|DOnMORE=1,2|!n MINE=x"]),
    ("25 taken by a DO", Outside, &["DOnMINE=1,2|f|!DOmMINE=1,2|m CONTINUE|n CONTINUE", "DOnMINE=1,2|!DOnMINE=1,2|n CONTINUE"]),
    ("25 taken by a DO further in", Outside, &["DOnMINE=1,2|DOnMORE=1,2|!DOnMINE=1,2|n CONTINUE"]),
];

/// The jumps of 24. Their target n is in a range, their target m is not.
pub const JUMPS: &[(&str, &[&str])] = &[
    ("GO TO", &["GOTOn"]),
    ("computed GO TO", &["GOTO(n,m),MINE", "GOTO(m,n),MINE", "GOTO(m,m,n,m),MINE"]),
    ("IF", &["IF(x)n,m,m", "IF(x)m,n,m", "IF(x)m,m,n"]),
];

/// Ranges with a place for the jump, J.
pub const RANGES: &[(&str, &[&str])] = &[
    ("into the range", &["!J|f|DOpMORE=1,2|f|n CONTINUE|f|p CONTINUE|m CONTINUE", "DOpMORE=1,2|n MINE=x|p CONTINUE|f|!J|m CONTINUE"]),
    ("to the last statement", &["!J|DOnMORE=1,2|f|n CONTINUE|m CONTINUE", "m CONTINUE|DOnMORE=1,2|n MINE=x|f|!J"]),
    ("to a last statement shared with a DO further in", &["DOnMORE=1,2|!J|DOnLAST=1,2|f|n CONTINUE|m CONTINUE"]),
    ("from another range", &["DOpMORE=1,2|!J|p CONTINUE|DOqMORE=1,2|n CONTINUE|q CONTINUE|m CONTINUE", "DOqMORE=1,2|n CONTINUE|q CONTINUE|f|DOpMORE=1,2|!J|p CONTINUE|m CONTINUE"]),
    ("to a DO in the range", &["!J|DOpMORE=1,2|n DOqLAST=1,2|q CONTINUE|p CONTINUE|m CONTINUE"]),
];
