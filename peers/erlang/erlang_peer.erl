%% erl .. -run erlang_peer main WORKLOAD: prints the seconds of a run of the workload, and how many messages were handled. Each actor is
%% a process. One that has handled what it is to handle says so, with its state.
-module(erlang_peer).
-export([main/1]).

main([Name]) ->
    {Actors, Senders} = workload(Name),
    Began = erlang:monotonic_time(microsecond),
    [Sender ! go || Sender <- Senders],
    Messages = lists:sum([ended(Actor) || Actor <- Actors]),
    Ended = erlang:monotonic_time(microsecond),
    io:format("~.6f ~b~n", [(Ended - Began) / 1000000, Messages]),
    erlang:halt(0).

%% Waits until an actor has handled all: it has to have this state.
ended({Pid, Count, State}) ->
    receive
        {done, Pid, State} -> Count;
        {done, Pid, Other} ->
            io:format(standard_error, "an actor ended with ~p in place of ~p~n", [Other, State]),
            erlang:halt(1)
    end.

%% The actors, each with how many messages it handles and its state at the end, and the senders.
workload("count") ->
    Counter = counter(1000000, 1),
    {[Counter], [sender([{Counter, 1, 1000000}])]};
workload("fan-in") ->
    Counter = counter(1000000, 1),
    {[Counter], [sender([{Counter, 1, 250000}]) || _ <- lists:seq(1, 4)]};
workload("spread") ->
    Counters = [counter(16 * 992, 1) || _ <- lists:seq(1, 63)],
    Table = list_to_tuple(Counters),
    To = fun(Sender, Place) -> element((16 * Sender + Place) rem 63 + 1, Table) end,
    {Counters, [sender([{To(Sender, Place), 1, 992} || Place <- lists:seq(0, 4 * 63 - 1)]) || Sender <- lists:seq(0, 3)]};
workload("chain") ->
    Actors = lists:foldl(fun(_, [Next | _] = All) -> [teller(20000, [Next]) | All] end, [counter(20000, 3)], lists:seq(1, 62)),
    {Actors, [sender([{hd(Actors), 3, 20000}])]};
workload("fan-out") ->
    Leaves = [counter(50000, 3) || _ <- lists:seq(1, 16)],
    Root = teller(50000, Leaves),
    {[Root | Leaves], [sender([{Root, 3, 50000}])]};
workload("restart") ->
    Main = self(),
    Parent = spawn(fun parent/0),
    Child = {spawn(fun() -> child(Main, Parent, 0, 0, 100000) end), 100000, {0, 10000}},
    {Pid, _, _} = Child,
    Driver = {spawn(fun() -> driver(Main, Pid, 10000) end), 10000, 0},
    {[Child, Driver], [sender([{Driver, 3, 10000}])]}.

counter(Count, Value) ->
    Main = self(),
    {spawn(fun() -> add(Main, 0, Count) end), Count, Count * Value}.

add(Main, Sum, 0) -> Main ! {done, self(), Sum};
add(Main, Sum, Left) ->
    receive {1, Value} -> add(Main, Sum + Value, Left - 1) end.

teller(Count, Others) ->
    Main = self(),
    Pids = [Pid || {Pid, _, _} <- Others],
    {spawn(fun() -> tell(Main, Pids, Count) end), Count, 0}.

tell(Main, _, 0) -> Main ! {done, self(), 0};
tell(Main, Pids, Left) ->
    receive {1, _} = Message -> tell_all(Pids, Message), tell(Main, Pids, Left - 1) end.

tell_all([], _) -> ok;
tell_all([Pid | Pids], Message) -> Pid ! Message, tell_all(Pids, Message).

%% The child keeps its mailbox over a restart, as in Akka: it catches its failure, tells its parent, and waits for the order.
child(Main, _, Sum, Restarts, 0) -> Main ! {done, self(), {Sum, Restarts}};
child(Main, Parent, Sum, Restarts, Left) ->
    receive
        {Kind, Value} when is_integer(Kind) ->
            try handle(Kind, Value, Sum) of
                New -> child(Main, Parent, New, Restarts, Left - 1)
            catch
                throw:Cause ->
                    Failure = make_ref(),
                    Parent ! {failed, self(), Failure, Cause},
                    receive {restart, Failure} -> ok end,
                    child(Main, Parent, 0, Restarts + 1, Left - 1)
            end
    end.

handle(1, Value, Sum) -> Sum + Value;
handle(2, _, _) -> throw({error, 7}).

parent() ->
    receive {failed, Child, Failure, _} -> Child ! {restart, Failure}, parent() end.

driver(Main, _, 0) -> Main ! {done, self(), 0};
driver(Main, Child, Left) ->
    receive {1, Value} -> send(Child, Value, 9), Child ! {2, Value}, driver(Main, Child, Left - 1) end.

%% A process that waits for `go`, and then sends all these.
sender(Sends) ->
    spawn(fun() -> receive go -> [send(Pid, Value, Times) || {{Pid, _, _}, Value, Times} <- Sends] end end).

send(_, _, 0) -> ok;
send(Pid, Value, Times) -> Pid ! {1, Value}, send(Pid, Value, Times - 1).
