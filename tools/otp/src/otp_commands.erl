%% The commands of a script, put to the node: each to the call of Erlang/OTP that docs/OTP.md names for it. The reply
%% is the node's own; what it changed is told to the journal, which infers the rest.
-module(otp_commands).
-export([make/3, has_old_code/1, doom/3, purge/2]).

%% Limits of the command table, which no node has.
-define(MOST_INSTANCES, 55).
-define(MOST_KEYS, 384).
-define(MOST_AREAS, 256).

%% what a command needs besides itself
-type setting() :: #{
    who := string(),
    line := string(),
    texts := #{{atom(), pos_integer()} => otp_script:module_text()},
    options := [last_calls],
    %% the processes that were spawned and go on, in order
    processes := [otp_rounds:going()]
}.
-export_type([setting/0]).

%% Makes a command, but for a purge of old code. The process of a spawn is started by who calls this.
-spec make(otp_script:command(), setting(), otp_history:history()) -> otp_history:history().
make(Command, #{who := Who, line := Line} = Setting, History) ->
    {Reply, Change} = ask(Command, Setting, History),
    otp_history:enter(Who, [Line, " = ", reply_text(Reply)], Change, History).

ask({load, References}, Setting, History) ->
    load(References, Setting, History);
ask({delete, Name}, Setting, History) ->
    delete(Name, Setting, History);
ask({check_old, Name}, _, _) ->
    {has_old_code(Name), none};
ask({soft_purge, Name}, Setting, History) ->
    soft_purge(Name, Setting, History);
ask({purge, Name}, _, _) ->
    {code:purge(otp_code:erlang_name(Name)), none};
ask({put, Key, Term}, Setting, History) ->
    put_term(Key, Term, Setting, History);
ask({erase, Key}, _, _) ->
    case persistent_term:erase(otp_code:key(Key)) of
        true -> {true, {erased, Key}};
        false -> {false, none}
    end;
ask({trace, {Module, Name, Arity}, On}, Setting, History) ->
    trace({Module, Name, Arity}, On, Setting, History);
ask({spawn, _}, _, _) ->
    {ok, none}.

reply_text({false_by, Process, Turn}) -> io_lib:format("false ~b ~b", [Process, Turn]);
reply_text({not_purged, Names}) -> ["not_purged ", otp_script:term_text(Names)];
reply_text({duplicated, Name}) -> ["duplicated ", atom_to_list(Name)];
reply_text({system_limit, Limit}) -> ["system_limit ", atom_to_list(Limit)];
reply_text(Reply) -> atom_to_list(Reply).

differs(Number, #{who := Who, line := Line}) ->
    otp_differences:note(Number, ["entry ", Who, " ", Line]).

%% ---- load

load(References, Setting, History) ->
    Names = [Name || {Name, _} <- References],
    Refusal = refusal(Names, History),
    case Refusal =/= none andalso otp_differences:steps_aside() of
        true -> {Refusal, none};
        false -> load_on_node(References, Names, Refusal, Setting, History)
    end.

%% How the table refuses a load, if it does, as the node's modules stand.
refusal(Names, History) ->
    Old = [Name || Name <- Names, has_old_code(Name)],
    Live = otp_history:live_instances(History) + length(Names),
    case {first_repeated(Names, []), Old} of
        {none, []} when Live > ?MOST_INSTANCES -> {system_limit, instances};
        {none, []} -> none;
        {none, _} -> {not_purged, Old};
        {Name, _} -> {duplicated, Name}
    end.

first_repeated([], _) ->
    none;
first_repeated([Name | Names], Earlier) ->
    case lists:member(Name, Earlier) of
        true -> Name;
        false -> first_repeated(Names, [Name | Earlier])
    end.

load_on_node(References, Names, Refusal, #{texts := Texts, options := Options} = Setting, History) ->
    First = otp_history:next_serial(History),
    Numbered = lists:zip(References, lists:seq(First, First + length(References) - 1)),
    Compiled = [otp_code:compile(map_get(Reference, Texts), Serial, Options) || {Reference, Serial} <- Numbered],
    Before = breakpoints(Names, History),
    case code:atomic_load([{Module, "script", Binary} || {Module, Binary} <- Compiled]) of
        ok ->
            came_in(Refusal, Setting),
            [otp_differences:lose_breakpoints(8, Lost) || Lost <- Before],
            {ok, {loaded, Names}};
        {error, Refused} ->
            [otp_differences:lose_breakpoints(9, Lost) || Lost <- lost(Before, breakpoints(Names, History))],
            {refused(Refusal, Refused, Setting), none}
    end.

came_in(none, _) -> ok;
came_in({not_purged, _}, Setting) -> differs(1, Setting);
came_in({system_limit, _}, Setting) -> differs(4, Setting).

refused(Refusal, Refused, Setting) ->
    case lists:usort([Reason || {_, Reason} <- Refused]) of
        [not_purged] -> not_purged(Refusal, [otp_code:script_name(Module) || {Module, _} <- Refused], Setting);
        [duplicated] -> duplicated(Refusal, otp_code:script_name(element(1, hd(Refused))), Setting)
    end.

not_purged({not_purged, Names}, Told, Setting) ->
    [differs(1, Setting) || length(Told) < length(Names)],
    [differs(2, Setting) || [Name || Name <- Names, lists:member(Name, Told)] =/= Told],
    {not_purged, Told}.

%% A report has one name, and the node tells all: the first of these is taken.
duplicated({duplicated, Name}, Told, Setting) ->
    [differs(3, Setting) || Told =/= Name],
    {duplicated, Told}.

%% ---- breakpoints

%% The functions of the current code of modules that have a breakpoint on the node, by the serials of the instances.
breakpoints(Names, History) ->
    [{Serial, traced(Name)} || Name <- Names, Serial <- [otp_history:current(Name, History)], Serial =/= none].

traced(Name) ->
    Module = otp_code:erlang_name(Name),
    [{F, A} || {F, A} <- otp_code:loaded_names({functions, Module}), is_traced({Module, F, A})].

is_traced(Function) ->
    erlang:trace_info(Function, traced) =:= {traced, local}.

lost(Before, After) ->
    [{Serial, Names -- proplists:get_value(Serial, After, [])} || {Serial, Names} <- Before].

trace({_, module_info, Arity} = Function, On, Setting, History) when Arity =< 1 ->
    case otp_differences:steps_aside() of
        true ->
            {false, none};
        false ->
            {Reply, Change} = trace_on_node(Function, On, Setting, History),
            [differs(10, Setting) || Reply],
            {Reply, Change}
    end;
trace(Function, On, Setting, History) ->
    trace_on_node(Function, On, Setting, History).

trace_on_node({Name, Function, Arity}, On, Setting, History) ->
    Pattern = {otp_code:erlang_name(Name), Function, Arity},
    Was = is_traced(Pattern),
    case erlang:trace_pattern(Pattern, On, [local]) of
        0 ->
            {false, none};
        1 ->
            Lost = otp_differences:set_breakpoint(otp_history:current(Name, History), {Function, Arity}),
            [differs(9, Setting) || Lost =:= 9],
            {true, if Was =:= On -> none; true -> traced end}
    end.

%% ---- delete and purge

delete(Name, Setting, History) ->
    Module = otp_code:erlang_name(Name),
    Loaded = erlang:module_loaded(Module),
    Before = breakpoints([Name], History),
    case (Loaded orelse not otp_differences:steps_aside()) andalso code:delete(Module) of
        true when Loaded ->
            [otp_differences:lose_breakpoints(8, Lost) || Lost <- Before],
            {true, {deleted, Name}};
        true ->
            differs(5, Setting),
            {true, {deleted, Name}};
        false ->
            {false, none}
    end.

%% The node says that somebody is in the way, and not who: each process is asked in turn.
soft_purge(Name, #{processes := Processes} = Setting, History) ->
    Module = otp_code:erlang_name(Name),
    Had = has_old_code(Name),
    case code:soft_purge(Module) of
        true when Had ->
            Serial = otp_history:old(Name, History),
            tell_last_calls(Serial, Processes, Setting),
            otp_differences:drop_breakpoints(Serial),
            {true, {dropped, Name}};
        true ->
            {true, none};
        false ->
            Lingering = fun({_, _, Process, _}) -> otp_process:lingers(Process, Module) end,
            {value, {Number, Turns, _, _}} = lists:search(Lingering, Processes),
            {{false_by, Number, Turns}, none}
    end.

%% Of these processes, which do not stand in the instance, some have left it by a last call.
tell_last_calls(Serial, Processes, Setting) ->
    [differs(6, Setting) || {_, _, _, Left} <- Processes, lists:member(Serial, Left)].

-spec has_old_code(atom()) -> boolean().
has_old_code(Name) ->
    erlang:check_old_code(otp_code:erlang_name(Name)).

%% The first half of a purge of old code. A node has none: it purges in one call. The processes are those that stand in
%% the old code by the node's word; they have no turn more, and the purge kills them.
-spec doom(atom(), pos_integer(), setting()) -> [Number :: non_neg_integer()].
doom(Name, Serial, #{processes := Processes} = Setting) ->
    Module = otp_code:erlang_name(Name),
    {Doomed, Others} = lists:partition(fun({_, _, Process, _}) -> otp_process:lingers(Process, Module) end, Processes),
    tell_last_calls(Serial, Others, Setting),
    [Number || {Number, _, _, _} <- Doomed].

%% The second half, which is the node's purge.
-spec purge(atom(), otp_history:history()) -> boolean().
purge(Name, History) ->
    Reply = code:purge(otp_code:erlang_name(Name)),
    otp_differences:drop_breakpoints(otp_history:old(Name, History)),
    Reply.

%% ---- persistent terms

put_term(Key, Term, Setting, History) ->
    Refusal = put_refusal(Key, Term, History),
    case Refusal =/= none andalso otp_differences:steps_aside() of
        true ->
            {Refusal, none};
        false ->
            [differs(4, Setting) || Refusal =/= none],
            put_on_node(Key, Term)
    end.

%% How the table refuses a put, if it does.
put_refusal(Key, Term, History) ->
    Keys = otp_history:keys(History),
    LacksKey = not lists:member(Key, Keys) andalso length(Keys) >= ?MOST_KEYS,
    LacksArea = (is_tuple(Term) orelse is_list(Term)) andalso otp_history:live_areas(History) >= ?MOST_AREAS,
    case holds(Key, Term) of
        true -> none;
        false when LacksKey -> {system_limit, keys};
        false when LacksArea -> {system_limit, areas};
        false -> none
    end.

put_on_node(Key, Term) ->
    Held = holds(Key, Term),
    ok = persistent_term:put(otp_code:key(Key), Term),
    {ok, if Held -> none; true -> {put, Key, Term} end}.

holds(Key, Term) ->
    persistent_term:get(otp_code:key(Key), make_ref()) =:= Term.
