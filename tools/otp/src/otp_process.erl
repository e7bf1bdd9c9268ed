%% A process of a script: a real Erlang process that runs the compiled code of the script's modules, one turn at a time.
%%
%% A turn ends where the code waits in turn_over/0. The call to it comes from the module's own code and is no last call,
%% so the waiting process stands in that module, as its frames below do, and erlang:check_process_code/2 sees it there.
-module(otp_process).

%% the driver's side
-export([start/1, step/1, lingers/2, await_kill/1]).
%% what the code of modules calls
-export([tick/0, yield/0, print/1, small/1, less/2, elem/2, enter/0, enter/3, entered/4, leave/0, last_call/1]).

-record(process, {pid :: pid(), monitor :: reference()}).
-opaque process() :: #process{}.
-type call() :: {module(), atom(), [term()]}.
-type line() ::
    {print, term()}
    | {trace, call()}
    %% a call that a breakpoint should have met, by the number of the difference
    | {untraced, pos_integer(), call()}
    %% a last call out of an instance
    | {left, Serial :: pos_integer()}.
-type ending() :: normal | badarg | badarith | system_limit | {undef, mfa()}.
-export_type([process/0, line/0, ending/0]).

%% Rules of the script's own machine, which no node has: they are counted in the compiled code.
-define(TURN_INSTRUCTIONS, 200).
-define(MOST_FRAMES, 64).
-define(LEAST_INTEGER, -(1 bsl 59)).
-define(GREATEST_INTEGER, (1 bsl 59) - 1).

%% ---- the driver's side

%% Spawns a process that waits for its first turn. Its calls are traced wherever a function has a breakpoint.
-spec start(call()) -> process().
start(Call) ->
    Driver = self(),
    {Pid, Monitor} = spawn_monitor(fun() -> live(Driver, Call) end),
    1 = erlang:trace(Pid, true, [call, strict_monotonic_timestamp, {tracer, Driver}]),
    #process{pid = Pid, monitor = Monitor}.

%% Lets a process have one turn: the lines that it made, in the order of their times, and whether it goes on.
-spec step(process()) -> {[line()], again | {ended, ending()}}.
step(#process{pid = Pid, monitor = Monitor}) ->
    Pid ! step,
    End =
        receive
            {turn_over, Pid} -> again;
            {'DOWN', Monitor, process, Pid, {ended, Ending}} -> {ended, Ending};
            {'DOWN', Monitor, process, Pid, Reason} -> error({no_end_of_a_script, Reason})
        end,
    Delivered = erlang:trace_delivered(Pid),
    receive
        {trace_delivered, Pid, Delivered} -> ok
    end,
    {[Line || {_, Line} <- lists:sort(lines(Pid))], End}.

%% The lines that came, each behind its time. The node stamps its trace messages as the process stamps what it prints.
lines(Pid) ->
    receive
        {line, Pid, Time, Line} -> [{Time, Line} | lines(Pid)];
        {trace_ts, Pid, call, Call, Time} -> [{Time, {trace, Call}} | lines(Pid)]
    after 0 -> []
    end.

%% Whether the node says that the process stands in the old code of a module.
-spec lingers(process(), module()) -> boolean().
lingers(#process{pid = Pid}, Module) ->
    erlang:check_process_code(Pid, Module).

%% Waits for the end of a process that a purge has killed.
-spec await_kill(process()) -> ok.
await_kill(#process{pid = Pid, monitor = Monitor}) ->
    receive
        {'DOWN', Monitor, process, Pid, killed} -> ok
    after 5000 -> error({purge_left_alive, Pid})
    end.

%% ---- the life of a process

live(Driver, {Module, Name, Arguments}) ->
    put(driver, Driver),
    put(frames, 0),
    await_turn(),
    exit({ended, ending(Module, Name, Arguments)}).

ending(Module, Name, Arguments) ->
    try
        enter(Module, Name, length(Arguments)),
        apply(Module, Name, Arguments),
        normal
    catch
        error:undef:Stack -> {undef, function_called(hd(Stack))};
        error:Reason when Reason =:= badarg; Reason =:= badarith; Reason =:= system_limit -> Reason
    end.

function_called({Module, Name, Arguments, _}) when is_list(Arguments) -> {Module, Name, length(Arguments)};
function_called({Module, Name, Arity, _}) -> {Module, Name, Arity}.

await_turn() ->
    receive
        step -> put(left, ?TURN_INSTRUCTIONS)
    end.

turn_over() ->
    get(driver) ! {turn_over, self()},
    await_turn().

%% ---- what the code of modules calls

%% Stands before each instruction: one that a turn has no room for waits for the next turn.
tick() ->
    case get(left) of
        0 -> turn_over();
        _ -> ok
    end,
    put(left, get(left) - 1).

yield() ->
    tick(),
    turn_over().

print(Term) ->
    tell({print, Term}).

tell(Line) ->
    Time = {erlang:monotonic_time(nanosecond), erlang:unique_integer([monotonic])},
    get(driver) ! {line, self(), Time, Line}.

small(Number) when Number >= ?LEAST_INTEGER, Number =< ?GREATEST_INTEGER -> Number;
small(_) -> error(system_limit).

%% Erlang has an order of all terms; the script's machine has one of integers.
less(A, B) when is_integer(A), is_integer(B) -> A < B;
less(_, _) -> error(badarg).

elem(Index, Tuple) when is_tuple(Tuple) -> element(Index, Tuple);
elem(Index, List) when is_integer(Index), Index >= 1, Index =< length(List) -> lists:nth(Index, List);
elem(_, _) -> error(badarg).

%% Stands before a local call.
enter() ->
    case get(frames) of
        ?MOST_FRAMES -> error(system_limit);
        Frames -> put(frames, Frames + 1)
    end.

%% Stands before an external call, which the node refuses as undef also where there is no room for a frame.
enter(Module, module_info, Arity) when Arity =< 1 ->
    otp_differences:calls_module_info(Module, Arity),
    enter();
enter(Module, Name, Arity) ->
    case erlang:function_exported(Module, Name, Arity) of
        true -> enter();
        false -> ok
    end.

%% Stands behind a call that has returned.
leave() ->
    put(frames, get(frames) - 1).

%% Stands in each function that is entered: tells of a call that a breakpoint should have met which the node took out.
entered(Serial, Module, Name, Arguments) ->
    case otp_differences:lost_breakpoint(Serial, Name, length(Arguments)) of
        none -> ok;
        Difference -> tell({untraced, Difference, {Module, Name, Arguments}})
    end.

%% Stands before a last call, by which a frame leaves its instance.
last_call(Serial) ->
    tell({left, Serial}).
