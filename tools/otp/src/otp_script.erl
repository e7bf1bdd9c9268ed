%% A script, read from its text. The text is taken as one that the proved program accepts: what is a script that program
%% alone says, and a text that is none makes this module crash at the line that it can't read.
-module(otp_script).
-export([read/1, call_text/1, name_text/1, term_text/1]).

-type register() :: {register, 0..15}.
-type operand() :: register() | {term, term()}.
-type instruction() ::
    {move, operand(), register()}
    | {add | sub, operand(), operand(), register()}
    | {eq | less, operand(), operand(), Target :: non_neg_integer()}
    | {jump, Target :: non_neg_integer()}
    | {call, {atom(), arity()}, register()}
    | {call_ext, mfa(), register()}
    | {ret, operand()}
    | {pget, atom(), register()}
    | {pget_or, atom(), operand(), register()}
    | {elem, operand(), operand(), register()}
    | {print, operand()}
    | yield.
-type function_text() :: #{name := atom(), arity := arity(), exported := boolean(), code := [instruction()]}.
-type module_text() :: #{name := atom(), version := pos_integer(), functions := [function_text()]}.
-type command() ::
    {load, [{atom(), pos_integer()}]}
    | {delete | soft_purge | purge | check_old | erase, atom()}
    | {put, atom(), term()}
    | {trace, mfa(), boolean()}
    | {spawn, {atom(), atom(), [term()]}}.
-type script() :: #{
    modules := [module_text()],
    observers := [pos_integer()],
    %% each command with its line
    loaders := [[{command(), string()}]]
}.
-export_type([script/0, module_text/0, function_text/0, instruction/0, operand/0, command/0]).

-spec read(string()) -> script().
read(Text) ->
    ["beam script 1" | Lines] = string:split(string:trim(Text, trailing, "\n"), "\n", all),
    {Modules, AfterModules} = modules(Lines, []),
    {Observers, AfterObservers} = observers(AfterModules, []),
    #{modules => Modules, observers => Observers, loaders => loaders(AfterObservers, [])}.

%% ---- modules

modules(["module " ++ Title | Lines], Modules) ->
    {Name, Version} = reference(Title),
    {Body, ["end" | Rest]} = lists:splitwith(fun(Line) -> Line =/= "end" end, Lines),
    Module = #{name => Name, version => Version, functions => functions(Body)},
    modules(Rest, [Module | Modules]);
modules(Lines, Modules) ->
    {lists:reverse(Modules), Lines}.

functions([]) ->
    [];
functions([Header | Lines]) ->
    {Body, Rest} = lists:splitwith(fun(Line) -> not is_header(Line) end, Lines),
    {Exported, Name} =
        case Header of
            "export " ++ Text -> {true, Text};
            "local " ++ Text -> {false, Text}
        end,
    {Function, Arity} = function_name(Name),
    [#{name => Function, arity => Arity, exported => Exported, code => code(Body)} | functions(Rest)].

is_header(Line) ->
    lists:prefix("export ", Line) orelse lists:prefix("local ", Line).

%% The instructions; what a label names is the number of the instruction that stands behind it.
code(Lines) ->
    {Count, Labels} = lists:foldl(fun place_label/2, {0, #{}}, Lines),
    Code = [instruction(string:split(Line, " ", all), Labels) || Line <- Lines, not lists:prefix("label ", Line)],
    Count = length(Code),
    Code.

place_label("label " ++ Label, {Place, Labels}) -> {Place, Labels#{Label => Place}};
place_label(_, {Place, Labels}) -> {Place + 1, Labels}.

instruction(["move", V, D], _) -> {move, operand(V), operand(D)};
instruction(["add", V, W, D], _) -> {add, operand(V), operand(W), operand(D)};
instruction(["sub", V, W, D], _) -> {sub, operand(V), operand(W), operand(D)};
instruction(["eq", V, W, L], Labels) -> {eq, operand(V), operand(W), map_get(L, Labels)};
instruction(["less", V, W, L], Labels) -> {less, operand(V), operand(W), map_get(L, Labels)};
instruction(["jump", L], Labels) -> {jump, map_get(L, Labels)};
instruction(["call", F, A], _) -> {call, function_name(F), operand(A)};
instruction(["call_ext", F, A], _) -> {call_ext, external_name(F), operand(A)};
instruction(["ret", V], _) -> {ret, operand(V)};
instruction(["pget", K, D], _) -> {pget, list_to_atom(K), operand(D)};
instruction(["pget_or", K, V, D], _) -> {pget_or, list_to_atom(K), operand(V), operand(D)};
instruction(["elem", V, W, D], _) -> {elem, operand(V), operand(W), operand(D)};
instruction(["print", V], _) -> {print, operand(V)};
instruction(["yield"], _) -> yield.

operand("$" ++ Number) -> {register, list_to_integer(Number)};
operand(Text) -> {term, term(Text)}.

%% ---- observers, loaders and their commands

observers(["observer " ++ Count | Lines], Counts) -> observers(Lines, [list_to_integer(Count) | Counts]);
observers(Lines, Counts) -> {lists:reverse(Counts), Lines}.

loaders(["go"], Loaders) ->
    lists:reverse(Loaders);
loaders(["loader" | Lines], Loaders) ->
    {Commands, Rest} = lists:splitwith(fun(Line) -> Line =/= "loader" andalso Line =/= "go" end, Lines),
    loaders(Rest, [[{command(string:split(Line, " ", all)), Line} || Line <- Commands] | Loaders]).

command(["load" | References]) -> {load, [reference(Reference) || Reference <- References]};
command(["delete", M]) -> {delete, list_to_atom(M)};
command(["soft_purge", M]) -> {soft_purge, list_to_atom(M)};
command(["purge", M]) -> {purge, list_to_atom(M)};
command(["check_old", M]) -> {check_old, list_to_atom(M)};
command(["put", K, T]) -> {put, list_to_atom(K), term(T)};
command(["erase", K]) -> {erase, list_to_atom(K)};
command(["trace", F, "on"]) -> {trace, external_name(F), true};
command(["trace", F, "off"]) -> {trace, external_name(F), false};
command(["spawn", Call]) -> {spawn, call(Call)}.

%% ---- names and terms

reference(Text) ->
    [Name, Version] = string:split(Text, "."),
    {list_to_atom(Name), list_to_integer(Version)}.

function_name(Text) ->
    [Name, Arity] = string:split(Text, "/"),
    {list_to_atom(Name), list_to_integer(Arity)}.

external_name(Text) ->
    [Module, Function] = string:split(Text, ":"),
    {Name, Arity} = function_name(Function),
    {list_to_atom(Module), Name, Arity}.

call(Text) ->
    [Module, Rest] = string:split(Text, ":"),
    [Name, Arguments] = string:split(Rest, "("),
    {Terms, ""} = terms(Arguments, $)),
    {list_to_atom(Module), list_to_atom(Name), Terms}.

term(Text) ->
    {Term, ""} = term_of(Text),
    Term.

term_of("{" ++ Rest) ->
    {Terms, Behind} = terms(Rest, $}),
    {list_to_tuple(Terms), Behind};
term_of("[" ++ Rest) ->
    terms(Rest, $]);
term_of(Text) ->
    {Word, Behind} = lists:splitwith(fun(Byte) -> not lists:member(Byte, ",)]}") end, Text),
    {immediate(Word), Behind}.

terms([Close | Rest], Close) ->
    {[], Rest};
terms(Text, Close) ->
    {Term, Behind} = term_of(Text),
    case Behind of
        "," ++ More ->
            {Terms, Rest} = terms(More, Close),
            {[Term | Terms], Rest};
        [Close | Rest] ->
            {[Term], Rest}
    end.

immediate([Byte | _] = Word) when Byte >= $a, Byte =< $z -> list_to_atom(Word);
immediate(Word) -> list_to_integer(Word).

%% ---- back to text

-spec term_text(term()) -> iolist().
term_text(Term) when is_integer(Term) -> integer_to_list(Term);
term_text(Term) when is_atom(Term) -> atom_to_list(Term);
term_text(Term) when is_tuple(Term) -> ["{", terms_text(tuple_to_list(Term)), "}"];
term_text(Term) when is_list(Term) -> ["[", terms_text(Term), "]"].

terms_text(Terms) ->
    lists:join(",", [term_text(Term) || Term <- Terms]).

-spec call_text({atom(), atom(), [term()]}) -> iolist().
call_text({Module, Name, Arguments}) ->
    [atom_to_list(Module), ":", atom_to_list(Name), "(", terms_text(Arguments), ")"].

-spec name_text(mfa()) -> iolist().
name_text({Module, Name, Arity}) ->
    [atom_to_list(Module), ":", atom_to_list(Name), "/", integer_to_list(Arity)].
