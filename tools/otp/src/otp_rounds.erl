%% A run of a script on this node, in rounds: each loader in order makes its next command, then what was dropped is
%% released, then each process that goes on has sixteen turns; observers look on after each round but the last, and
%% after it take what they lack. So each turn is under one generation. A purge of old code in which a process stands
%% takes two rounds, and while it is open the other loaders only spawn and look for old code.
-module(otp_rounds).
-export([run/2]).

-type span() :: {Generation :: non_neg_integer(), Turns :: pos_integer(), [otp_process:line()]}.
-type ending() :: otp_process:ending() | {killed, pos_integer()}.
-type snapshot() :: {Generation :: non_neg_integer(), [{mfa(), pos_integer()}]}.
-type outcome() :: #{
    generation := non_neg_integer(),
    entries := [iolist()],
    processes := [{{atom(), atom(), [term()]}, [span()], ending()}],
    observers := [[snapshot()]]
}.
-define(TURNS, 16).

%% number, turns, the process, and the serials of the instances that it has left by last calls
-type going() :: {non_neg_integer(), non_neg_integer(), otp_process:process(), [pos_integer()]}.
-export_type([outcome/0, span/0, ending/0, snapshot/0, going/0]).

%% a loader: its number, the commands that it has left with their lines, the number of the process that it spawns next
-record(loader, {number, commands, next_process}).

%% a process of the script
-record(life, {
    call,
    phase = waiting :: waiting | going | {doomed, pos_integer()} | {ended, ending()},
    process :: otp_process:process() | undefined,
    %% its place among those that go on
    place = 0 :: non_neg_integer(),
    turns = 0 :: non_neg_integer(),
    %% the newest first
    spans = [] :: [span()],
    %% the serials of the instances that it has left by last calls
    left = [] :: [pos_integer()]
}).

%% a purge between its halves: the loader that makes it, and the processes that it will kill
-record(purging, {loader, doomed}).

-record(run, {
    texts :: #{{atom(), pos_integer()} => otp_script:module_text()},
    options :: [last_calls],
    history = otp_history:new() :: otp_history:history(),
    purging = none :: none | #purging{},
    loaders :: [#loader{}],
    lives :: #{non_neg_integer() => #life{}},
    %% the places that ended processes left, that which was left last in front, and the first one that nobody had
    left = [] :: [non_neg_integer()],
    new_place = 0 :: non_neg_integer(),
    observers :: [{Left :: non_neg_integer(), [snapshot()]}]
}).

-spec run(otp_script:script(), [last_calls]) -> outcome().
run(#{modules := Modules, observers := Observers, loaders := Loaders}, Options) ->
    Calls = [Call || Commands <- Loaders, {{spawn, Call}, _} <- Commands],
    Lives = [#life{call = Call} || Call <- Calls],
    rounds(#run{
        texts = maps:from_list([{{Name, Version}, Text} || #{name := Name, version := Version} = Text <- Modules]),
        options = Options,
        loaders = numbered(Loaders, 0, 0),
        lives = maps:from_list(lists:zip(lists:seq(0, length(Lives) - 1), Lives)),
        observers = [{Count, []} || Count <- Observers]
    }).

%% Processes are numbered by the spawn lines of the text.
numbered([], _, _) ->
    [];
numbered([Commands | Loaders], Number, Process) ->
    Spawns = length([Call || {{spawn, Call}, _} <- Commands]),
    Loader = #loader{number = Number, commands = Commands, next_process = Process},
    [Loader | numbered(Loaders, Number + 1, Process + Spawns)].

rounds(Run) ->
    #run{history = History} = Commanded = loaders_round(Run),
    Released = Commanded#run{history = otp_history:release(in_order(Commanded) =:= [], History)},
    Round = lists:foldl(fun(_, Turned) -> processes_lap(Turned) end, Released, lists:seq(1, ?TURNS)),
    case is_over(Round) of
        false -> rounds(observe(fun(Left) -> min(Left, 1) end, Round));
        true -> outcome(observe(fun(Left) -> Left end, Round))
    end.

%% All commands are made, all processes have ended and all that was dropped is released.
is_over(#run{loaders = Loaders, history = History} = Run) ->
    in_order(Run) =:= [] andalso not otp_history:has_retired(History) andalso
        lists:all(fun(#loader{commands = Commands}) -> Commands =:= [] end, Loaders).

%% The processes that go on, doomed ones too, by place.
in_order(#run{lives = Lives}) ->
    Places = [
        {Place, Number}
     || {Number, #life{phase = Phase, place = Place}} <- maps:to_list(Lives), Phase =/= waiting, not has_ended(Phase)
    ],
    [Number || {_, Number} <- lists:sort(Places)].

has_ended({ended, _}) -> true;
has_ended(_) -> false.

outcome(#run{history = History, lives = Lives, observers = Observers}) ->
    #{
        generation => otp_history:generation(History),
        entries => otp_history:entries(History),
        processes => [log(Life) || {_, Life} <- lists:sort(maps:to_list(Lives))],
        observers => [lists:reverse(Snapshots) || {0, Snapshots} <- Observers]
    }.

%% Spans and their lines were gathered backwards.
log(#life{call = Call, spans = Spans, phase = {ended, Ending}}) ->
    {Call, [{Generation, Turns, lists:reverse(Lines)} || {Generation, Turns, Lines} <- lists:reverse(Spans)], Ending}.

%% ---- loaders

loaders_round(#run{loaders = Loaders} = Run) ->
    lists:foldl(fun loader_step/2, Run, [Number || #loader{number = Number} <- Loaders]).

loader_step(Number, Run) ->
    #loader{commands = Commands} = loader(Number, Run),
    case Commands of
        [] ->
            Run;
        [{Command, Line} | _] ->
            case goes_now(Command, Number, Run#run.purging) of
                true -> command(Command, Line, Number, Run);
                false -> Run
            end
    end.

loader(Number, #run{loaders = Loaders}) ->
    lists:keyfind(Number, #loader.number, Loaders).

%% While a purge is open only its own loader changes code.
goes_now(_, _, none) -> true;
goes_now(_, Number, #purging{loader = Number}) -> true;
goes_now({spawn, _}, _, _) -> true;
goes_now({check_old, _}, _, _) -> true;
goes_now(_, _, _) -> false.

command({purge, Module}, Line, Number, #run{purging = #purging{doomed = Doomed}} = Run) ->
    purge(Module, Line, Number, Doomed, Run);
command({purge, Module} = Command, Line, Number, #run{history = History} = Run) ->
    case otp_commands:has_old_code(Module) of
        false -> done(Number, make(Command, Line, Number, Run));
        true -> begin_purge(Module, otp_history:old(Module, History), Line, Number, Run)
    end;
command({spawn, Call} = Command, Line, Number, Run) ->
    #loader{next_process = Process} = loader(Number, Run),
    done(Number, spawned(Process, Call, make(Command, Line, Number, Run)));
command(Command, Line, Number, Run) ->
    done(Number, make(Command, Line, Number, Run)).

make(Command, Line, Number, #run{history = History} = Run) ->
    Run#run{history = otp_commands:make(Command, setting(Line, Number, Run), History)}.

setting(Line, Number, #run{texts = Texts, options = Options, lives = Lives} = Run) ->
    #{
        who => who(Number),
        line => Line,
        texts => Texts,
        options => Options,
        processes => [
            {Process, Life#life.turns, Life#life.process, Life#life.left}
         || Process <- in_order(Run), #life{phase = going} = Life <- [map_get(Process, Lives)]
        ]
    }.

who(Number) -> "L" ++ integer_to_list(Number).

%% The loader goes on to its next command.
done(Number, #run{loaders = Loaders} = Run) ->
    #loader{commands = [{Command, _} | Rest], next_process = Next} = Loader = loader(Number, Run),
    Spawned = case Command of {spawn, _} -> 1; _ -> 0 end,
    After = Loader#loader{commands = Rest, next_process = Next + Spawned},
    Run#run{loaders = lists:keyreplace(Number, #loader.number, Loaders, After)}.

spawned(Number, {Module, Name, Arguments}, #run{lives = Lives} = Run) ->
    Process = otp_process:start({otp_code:erlang_name(Module), Name, Arguments}),
    #{Number := Life} = Lives,
    {Place, Placed} = take_place(Run),
    Placed#run{lives = Lives#{Number := Life#life{phase = going, process = Process, place = Place}}}.

%% The place that was left last, or a new one behind the others.
take_place(#run{left = [Place | Left]} = Run) -> {Place, Run#run{left = Left}};
take_place(#run{left = [], new_place = Place} = Run) -> {Place, Run#run{new_place = Place + 1}}.

%% ---- purges of old code

%% Where nobody stands in the old code both halves are made at once.
begin_purge(Module, Serial, Line, Number, Run) ->
    case doom(Module, Serial, Line, Number, Run) of
        #run{purging = #purging{doomed = []}} = Begun -> purge(Module, Line, Number, [], Begun);
        Begun -> Begun
    end.

%% INFERRED: the first half, which publishes the doom. Who is doomed the node says.
doom(Module, Serial, Line, Number, #run{history = History, lives = Lives} = Run) ->
    Doomed = otp_commands:doom(Module, Serial, setting(Line, Number, Run)),
    Condemn = fun(_, Life) -> Life#life{phase = {doomed, Serial}} end,
    Run#run{
        history = otp_history:enter(who(Number), ["doom ", atom_to_list(Module), " = ok"], {doomed, Module}, History),
        lives = maps:merge(Lives, maps:map(Condemn, maps:with(Doomed, Lives))),
        purging = #purging{loader = Number, doomed = Doomed}
    }.

%% The second half is the node's purge, which kills them.
purge(Module, Line, Number, Doomed, #run{history = History, lives = Lives} = Run) ->
    Reply = otp_commands:purge(Module, History),
    [otp_process:await_kill((map_get(Process, Lives))#life.process) || Process <- Doomed],
    Text = [Line, " = ", atom_to_list(Reply)],
    done(Number, Run#run{history = otp_history:enter(who(Number), Text, {dropped, Module}, History), purging = none}).

%% ---- processes

processes_lap(Run) ->
    lists:foldl(fun process_turn/2, Run, in_order(Run)).

process_turn(Number, #run{lives = Lives} = Run) ->
    case map_get(Number, Lives) of
        #life{phase = going} = Life ->
            turned(Number, turn(Number, Life, Run), Run);
        #life{phase = {doomed, Serial}} = Life ->
            %% INFERRED: a process on the node is gone at once; by the rules it ends in the turn that sees the doom.
            turned(Number, ended({killed, Serial}, took_turn([], Life, Run)), Run)
    end.

%% Who has ended leaves its place.
turned(Number, #life{phase = Phase, place = Place} = Life, #run{lives = Lives, left = Left} = Run) ->
    After = Run#run{lives = Lives#{Number := Life}},
    case has_ended(Phase) of
        true -> After#run{left = [Place | Left]};
        false -> After
    end.

turn(Number, #life{process = Process} = Life, Run) ->
    {Lines, End} = otp_process:step(Process),
    Left = [Serial || {left, Serial} <- Lines],
    Told = lists:append([told(Line, Number, Run) || Line <- Lines]),
    After = took_turn(Told, Life#life{left = Left ++ Life#life.left}, Run),
    case End of
        again -> After;
        {ended, Ending} -> ended(script_names(Ending), After)
    end.

ended(Ending, Life) ->
    Life#life{phase = {ended, Ending}}.

%% The line as a report has it, if it has it.
told({print, Term}, _, _) ->
    [{print, Term}];
told({trace, Call}, _, _) ->
    [{trace, script_call(Call)}];
told({left, _}, _, _) ->
    [];
told({untraced, Difference, Call}, Number, #run{history = History}) ->
    case otp_differences:steps_aside() of
        true ->
            [{trace, script_call(Call)}];
        false ->
            Generation = otp_history:generation(History),
            Where = io_lib:format("process ~b under generation ~b, ", [Number, Generation]),
            otp_differences:note(Difference, [Where, otp_script:call_text(script_call(Call))]),
            []
    end.

script_call({Module, Name, Arguments}) -> {otp_code:script_name(Module), Name, Arguments}.

script_names({undef, {Module, Name, Arity}}) -> {undef, {otp_code:script_name(Module), Name, Arity}};
script_names(Ending) -> Ending.

%% One turn more, with its lines: in the last span, where that is under the same generation.
took_turn(Lines, #life{turns = Turns, spans = Spans} = Life, #run{history = History}) ->
    Generation = otp_history:generation(History),
    After =
        case Spans of
            [{Generation, Had, Earlier} | Rest] -> [{Generation, Had + 1, lists:reverse(Lines, Earlier)} | Rest];
            _ -> [{Generation, 1, lists:reverse(Lines)} | Spans]
        end,
    Life#life{turns = Turns + 1, spans = After}.

%% ---- observers

%% Each takes so many of the snapshots that it lacks.
observe(Count, #run{observers = Observers} = Run) ->
    Run#run{observers = [look(Count(Left), Left, Snapshots, Run) || {Left, Snapshots} <- Observers]}.

look(0, Left, Snapshots, _) ->
    {Left, Snapshots};
look(Count, Left, Snapshots, Run) ->
    {Left - Count, lists:duplicate(Count, snapshot(Run)) ++ Snapshots}.

%% What the node's modules of the script export, each with the serial with which it was made.
snapshot(#run{history = History, texts = Texts}) ->
    Names = lists:usort([Name || {Name, _} <- maps:keys(Texts)]),
    {otp_history:generation(History), lists:append([exports(Name) || Name <- Names])}.

exports(Name) ->
    Module = otp_code:erlang_name(Name),
    [
        {{Name, Function, Arity}, otp_code:serial(Module)}
     || {Function, Arity} <- lists:sort(otp_code:loaded_names({exports, Module}))
    ].
