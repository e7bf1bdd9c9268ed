%% A module text as a real Erlang module: each function of the text is a function of its name and arity, a call of the
%% text is a call of Erlang, local or fully qualified, and what a label names is a function of sixteen registers.
%%
%% So `export f/1`, `label again`, `print $0`, `jump again` becomes
%%
%%     f(R0) ->
%%         otp_process:entered(1, script_m, f, [R0]),
%%         'f/1 at 0'(R0, 0, 0, ..).
%%     'f/1 at 0'(R0, R1, R2, ..) ->
%%         otp_process:tick(),
%%         otp_process:print(R0),
%%         otp_process:tick(),
%%         'f/1 at 0'(R0, R1, R2, ..).
-module(otp_code).
-export([erlang_name/1, script_name/1, key/1, compile/3, source/3, loaded_names/1, serial/1]).

-define(REGISTERS, 16).
-define(PREFIX, "script_").
-define(KEPT, 'local functions').

%% ---- names

%% The modules of a script have names of their own on the node, so that none of them is one of Erlang's.
-spec erlang_name(atom()) -> module().
erlang_name(Name) -> list_to_atom(?PREFIX ++ atom_to_list(Name)).

-spec script_name(module()) -> atom().
script_name(Module) -> list_to_atom(string:prefix(atom_to_list(Module), ?PREFIX)).

%% The key of a persistent term of a script.
key(Name) -> {script, Name}.

%% The functions of a module's text that its current code has: exported ones, or all. None where there is no such code.
-spec loaded_names({exports | functions, module()}) -> [{atom(), arity()}].
loaded_names({Which, Module}) ->
    case erlang:module_loaded(Module) of
        true -> [Name || {Function, _} = Name <- Module:module_info(Which), is_of_text(Function)];
        false -> []
    end.

is_of_text(Function) ->
    Function =/= module_info andalso not lists:member($\s, atom_to_list(Function)).

%% The serial with which the current code of a module was made.
-spec serial(module()) -> pos_integer().
serial(Module) ->
    [Serial] = proplists:get_value(serial, Module:module_info(attributes)),
    Serial.

%% ---- modules

%% The object code of a module text, with the serial that it has once it is loaded.
-spec compile(otp_script:module_text(), pos_integer(), [last_calls]) -> {module(), binary()}.
compile(Text, Serial, Options) ->
    case compile:forms(forms(Text, Serial, Options), [binary, no_auto_import]) of
        {ok, Module, Binary} -> {Module, Binary};
        error -> error({not_compiled, map_get(name, Text)})
    end.

%% The same as Erlang source, for a reader.
-spec source(otp_script:module_text(), pos_integer(), [last_calls]) -> iolist().
source(Text, Serial, Options) ->
    [erl_pp:form(Form) || Form <- forms(Text, Serial, Options)].

-record(module, {name, serial, functions, last_calls}).
-record(function, {module, name, arity, code, starts}).

forms(#{name := Name, functions := Functions}, Serial, Options) ->
    Module = #module{
        name = erlang_name(Name),
        serial = Serial,
        functions = list_to_tuple(Functions),
        last_calls = lists:member(last_calls, Options)
    },
    Exported = [{F, A} || #{name := F, arity := A, exported := true} <- Functions],
    [
        {attribute, 1, module, Module#module.name},
        {attribute, 1, export, [{?KEPT, 0} | Exported]},
        {attribute, 1, serial, Serial},
        kept(Functions)
        | lists:flatmap(fun(Function) -> function(Function, Module) end, Functions)
    ].

%% Keeps local functions that nobody calls: the compiler drops them else.
kept(Functions) ->
    Funs = [{'fun', 1, {function, F, A}} || #{name := F, arity := A, exported := false} <- Functions],
    {function, 1, ?KEPT, 0, [{clause, 1, [], [], [erl_list(Funs)]}]}.

function(#{name := Name, arity := Arity, code := Code}, Module) ->
    Starts = lists:usort([0 | lists:append(starts(0, Code))]),
    Function = #function{module = Module, name = Name, arity = Arity, code = list_to_tuple(Code), starts = Starts},
    [entry(Function) | [block(Start, Function) || Start <- Starts]].

%% Where blocks start: at what a branch goes to, and behind one.
starts(_, []) -> [];
starts(At, [{eq, _, _, Target} | Code]) -> [[Target, At + 1] | starts(At + 1, Code)];
starts(At, [{less, _, _, Target} | Code]) -> [[Target, At + 1] | starts(At + 1, Code)];
starts(At, [{jump, Target} | Code]) -> [[Target] | starts(At + 1, Code)];
starts(At, [_ | Code]) -> starts(At + 1, Code).

%% The function as it is called and traced.
entry(#function{name = Name, arity = Arity, module = #module{name = Module, serial = Serial}} = Function) ->
    Arguments = [register_name(R) || R <- lists:seq(0, Arity - 1)],
    Rest = lists:duplicate(?REGISTERS - Arity, {integer, 1, 0}),
    Entered = machine(entered, [{integer, 1, Serial}, {atom, 1, Module}, {atom, 1, Name}, erl_list(Arguments)]),
    {function, 1, Name, Arity, [{clause, 1, Arguments, [], [Entered, block_call(0, Arguments ++ Rest, Function)]}]}.

%% The instructions from one start of a block to the next.
block(Start, Function) ->
    Registers = [register_name(R) || R <- lists:seq(0, ?REGISTERS - 1)],
    Body = instructions(Start, list_to_tuple(Registers), Function, Start),
    {function, 1, block_name(Start, Function), ?REGISTERS, [{clause, 1, Registers, [], Body}]}.

%% Registers are Erlang expressions: a variable, or a constant that was moved there.
instructions(At, Registers, #function{starts = Starts, code = Code} = Function, Start) ->
    case At =/= Start andalso lists:member(At, Starts) of
        true -> [go(At, Registers, Function)];
        false when At =:= tuple_size(Code) -> [machine(tick, []), {atom, 1, ok}];
        false -> instruction(element(At + 1, Code), At, Registers, Function, Start)
    end.

instruction(yield, At, Registers, Function, Start) ->
    [machine(yield, []) | instructions(At + 1, Registers, Function, Start)];
instruction(Instruction, At, Registers, Function, Start) ->
    [machine(tick, []) | counted(Instruction, At, Registers, Function, Start)].

counted({move, V, D}, At, Registers, Function, Start) ->
    instructions(At + 1, set(D, value(V, Registers), Registers), Function, Start);
counted({add, V, W, D}, At, Registers, Function, Start) ->
    Sum = machine(small, [{op, 1, '+', value(V, Registers), value(W, Registers)}]),
    bound(Sum, D, At, Registers, Function, Start);
counted({sub, V, W, D}, At, Registers, Function, Start) ->
    Difference = machine(small, [{op, 1, '-', value(V, Registers), value(W, Registers)}]),
    bound(Difference, D, At, Registers, Function, Start);
counted({pget, K, D}, At, Registers, Function, Start) ->
    bound(remote(persistent_term, get, [erl_parse:abstract(key(K))]), D, At, Registers, Function, Start);
counted({pget_or, K, V, D}, At, Registers, Function, Start) ->
    Arguments = [erl_parse:abstract(key(K)), value(V, Registers)],
    bound(remote(persistent_term, get, Arguments), D, At, Registers, Function, Start);
counted({elem, V, W, D}, At, Registers, Function, Start) ->
    bound(machine(elem, [value(V, Registers), value(W, Registers)]), D, At, Registers, Function, Start);
counted({print, V}, At, Registers, Function, Start) ->
    [machine(print, [value(V, Registers)]) | instructions(At + 1, Registers, Function, Start)];
counted({eq, V, W, Target}, At, Registers, Function, _) ->
    [branch({op, 1, '=:=', value(V, Registers), value(W, Registers)}, Target, At, Registers, Function)];
counted({less, V, W, Target}, At, Registers, Function, _) ->
    [branch(machine(less, [value(V, Registers), value(W, Registers)]), Target, At, Registers, Function)];
counted({jump, Target}, _, Registers, Function, _) ->
    [go(Target, Registers, Function)];
counted({ret, V}, _, Registers, _, _) ->
    [value(V, Registers)];
counted({call, {Name, Arity}, A}, At, Registers, Function, Start) ->
    Call = {call, 1, {atom, 1, Name}, arguments(A, Arity, Registers)},
    called(machine(enter, []), Call, A, At, Registers, Function, Start);
counted({call_ext, {M, Name, Arity}, A}, At, Registers, Function, Start) ->
    Module = erlang_name(M),
    Enter = machine(enter, [{atom, 1, Module}, {atom, 1, Name}, {integer, 1, Arity}]),
    Call = remote(Module, Name, arguments(A, Arity, Registers)),
    called(Enter, Call, A, At, Registers, Function, Start).

%% A call keeps its caller's frame: leave/0 stands behind it. With last_calls one whose value is returned at once does
%% not.
called(Enter, Call, A, At, Registers, #function{module = Module} = Function, Start) ->
    case Module#module.last_calls andalso is_returned(A, At + 1, Function) of
        true -> [machine(last_call, [{integer, 1, Module#module.serial}]), Call];
        false -> [Enter | bound(Call, A, At, Registers, Function, Start, [machine(leave, [])])]
    end.

is_returned(Register, At, #function{code = Code}) ->
    At < tuple_size(Code) andalso element(At + 1, Code) =:= {ret, Register}.

%% A register becomes the value of an expression.
bound(Expression, D, At, Registers, Function, Start) ->
    bound(Expression, D, At, Registers, Function, Start, []).

bound(Expression, D, At, Registers, Function, Start, Behind) ->
    Variable = {var, 1, list_to_atom("V" ++ integer_to_list(At))},
    [{match, 1, Variable, Expression} | Behind] ++ instructions(At + 1, set(D, Variable, Registers), Function, Start).

branch(Test, Target, At, Registers, Function) ->
    {'case', 1, Test, [
        {clause, 1, [{atom, 1, true}], [], [go(Target, Registers, Function)]},
        {clause, 1, [{atom, 1, false}], [], [go(At + 1, Registers, Function)]}
    ]}.

go(Target, Registers, Function) ->
    block_call(Target, tuple_to_list(Registers), Function).

block_call(Target, Arguments, Function) ->
    {call, 1, {atom, 1, block_name(Target, Function)}, Arguments}.

%% A name that no script can spell, so that nobody calls or traces it.
block_name(Start, #function{name = Name, arity = Arity}) ->
    list_to_atom(lists:concat([Name, "/", Arity, " at ", Start])).

%% ---- expressions

register_name(Number) -> {var, 1, list_to_atom("R" ++ integer_to_list(Number))}.

value({register, Number}, Registers) -> element(Number + 1, Registers);
value({term, Term}, _) -> erl_parse:abstract(Term).

set({register, Number}, Expression, Registers) -> setelement(Number + 1, Registers, Expression).

arguments({register, First}, Arity, Registers) ->
    [element(Number + 1, Registers) || Number <- lists:seq(First, First + Arity - 1)].

machine(Name, Arguments) -> remote(otp_process, Name, Arguments).

remote(Module, Name, Arguments) ->
    {call, 1, {remote, 1, {atom, 1, Module}, {atom, 1, Name}}, Arguments}.

erl_list(Expressions) ->
    lists:foldr(fun(Head, Tail) -> {cons, 1, Head, Tail} end, {nil, 1}, Expressions).
