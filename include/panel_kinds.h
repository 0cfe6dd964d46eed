/* The kinds of a sheet's operators, and of its rules. */
#ifndef TIHVOMEN_PANEL_KINDS_H
#define TIHVOMEN_PANEL_KINDS_H

/* The kind of an operator. */
enum panel_operator_kind {
    PANEL_INFIX = 0, /* it stands between two operands */
    PANEL_PREFIX = 1 /* it stands before its only operand */
};

/*
 * The kind of a rule, its first byte; the operators a and b are its second and third. An infix b is looked for on top of
 * an operand of a. A prefix b is looked for in the left operand of an infix a, anywhere on the right edge: the top node,
 * its rightmost operand, and on down to the first bracket or reading. Other rules with a prefix operator exclude nothing.
 */
enum panel_rule_kind {
    PANEL_PRIORITY = 1, /* a over b, and over all that b is over: none of them is found in an operand of a */
    PANEL_LEFT = 2,     /* a left b: b is not found in a's right or only operand */
    PANEL_RIGHT = 3     /* a right b, for an infix a: b is not found in its left operand */
};

#endif
