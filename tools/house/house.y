/* The house variant notation: a book is one or more variants, and a variant has its five fields, each once and in this order. */
%define lr.type lalr
%define lr.default-reduction accepting

%token VARIANT NAME PITS SEEDS SOW LAPS CAPTURE EQUALS NUMBER
%token LEFT RIGHT SINGLE RELAY OPPOSITE EXACT NOTHING THEN

%%
book: book variant
    | variant
    ;
variant: VARIANT NAME pits seeds sow laps capture
    ;
pits: PITS EQUALS NUMBER
    ;
seeds: SEEDS EQUALS NUMBER
    ;
sow: SOW EQUALS LEFT
    | SOW EQUALS RIGHT
    ;
laps: LAPS EQUALS SINGLE
    | LAPS EQUALS RELAY
    ;
capture: CAPTURE EQUALS takes
    ;
takes: takes THEN take
    | take
    ;
take: OPPOSITE
    | EXACT NUMBER
    | NOTHING
    ;
