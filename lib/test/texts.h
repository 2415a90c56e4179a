/* Small texts of each kind, and claims about them. */
#ifndef TEXTS_H
#define TEXTS_H

/* Words of a command, each with a 0 at its end. */
#define WORDS(s) (const uint8_t *)(s), sizeof(s)

/* 1 to 4; a maximum flow has the value 6. */
static const char max[] = "p max 4 5\nn 1 s\nn 4 t\na 1 2 4\na 1 3 2\na 2 3 2\na 2 4 3\na 3 4 5\n";
static const char flow[] = "s 6\nf 1 2 4\nf 1 3 2\nf 2 3 1\nf 2 4 3\nf 3 4 3\n";
static const char slow[] = "s 5\nf 1 2 3\nf 1 3 2\nf 2 4 3\nf 3 4 2\n";
static const char cut[] = "p cut 4 1\nu 1\n";

/* Four units from 1 to 4 cost 14 at least. */
static const char min[] = "p min 4 5\nn 1 4\nn 4 -4\na 1 2 0 4 2\na 1 3 0 2 2\na 2 3 0 2 1\na 2 4 0 3 3\na 3 4 0 5 1\n";
static const char least[] = "s 14\nf 1 2 2\nf 1 3 2\nf 2 3 2\nf 3 4 4\n";
static const char dear[] = "s 15\nf 1 2 2\nf 1 3 2\nf 2 3 1\nf 2 4 1\nf 3 4 3\n";
static const char pot[] = "p pot 4 3\ny 1 4\ny 2 2\ny 3 1\n";

/* No flow is feasible, as both nodes show. */
static const char surplus[] = "p min 2 1\nn 1 1\na 1 2 0 5 1\n";
static const char both[] = "p cut 2 2\nu 1\nu 2\n";

/* A circle of weight 0 beside an arc from 1 to 2. */
static const char graph[] = "p sp 4 3\na 1 2 5\na 3 4 0\na 4 3 0\n";
static const char pairs[] = "p aux sp p2p 2\nq 1 2\nq 1 4\n";
static const char source[] = "p aux sp ss 1\ns 1\n";
static const char dist[] = "p dist 4 1\nt 1 1\nd 2 5 1\n";
static const char near[] = "p distances 4 1\nt 1 1\nd 2 5\n";

#endif
