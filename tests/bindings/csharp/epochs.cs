// Two machines of a match that goes on in epochs, by the calls of fazgrond.cs: no call of the session stands between the poll and the
// seam. Then games by the sync test.
using System;
using System.Collections.Generic;
using System.Linq;
using System.Runtime.InteropServices;
using static Fazgrond;

public static unsafe class Epochs
{
    const uint Frames = 200;
    // Who may come, and the ticket of the name 3: hashlib of Python made it.
    const ulong Comers = 0xfedcba9876543210, Ticket = 0xa00ed4d700000003;
    static byte* bytes;

    sealed class Machine
    {
        public byte Me;
        public Session* Session;
        public Peer* Peer;
        public ulong State;
        public readonly ulong[] Saved = new ulong[257];
        public readonly List<ulong> Bases = new List<ulong> { 0 };
        public readonly Queue<List<byte[]>> Coming = new Queue<List<byte[]>>();
    }

    static void Must(int code)
    {
        if (code != Ok)
            throw new InvalidOperationException("refused: " + code);
    }

    static void Is<T>(string what, T value, T due)
    {
        if (!Equals(value, due))
            throw new InvalidOperationException(what + " is " + value + ", and not " + due);
    }

    static void* Handle()
    {
        var at = Marshal.AllocHGlobal(sizeof(Session));
        Marshal.Copy(new byte[sizeof(Session)], 0, at, sizeof(Session));
        return (void*)at;
    }

    static uint Pressed(uint machine, ulong frame) { return (uint)(frame * (machine + 3) / 7 % 4); }

    static ulong Stepped(ulong state, uint first, uint second) { return (31 * state + first + 2 * second) % 1000003; }

    static Machine Opened(byte me, int lag)
    {
        var machine = new Machine { Me = me, Session = (Session*)Handle(), Peer = (Peer*)Handle() };
        var settings = fazgrond_settings_for(2);
        settings.Local = 1u << me;
        Must(fazgrond_open(machine.Session, &settings));
        var match = fazgrond_match_for(2, me);
        fazgrond_one_number(&match, 7);
        match.Owners[0] = 0;
        match.Owners[1] = 1;
        match.Draw = 70ul + me;
        match.Comers = Comers;
        var epoch = fazgrond_epoch_for(&match, &settings);
        for (uint at = 0; at < 256; at++)
            Is("whether the epoch has machine " + at, fazgrond_epoch_has(&epoch, at), at < 2 ? 1u : 0u);
        Must(fazgrond_peer_open_lasting(machine.Peer, machine.Session, &match, &epoch));
        for (int turn = 0; turn < lag; turn++)
            machine.Coming.Enqueue(new List<byte[]>());
        return machine;
    }

    static void CarryOutAll(Machine machine)
    {
        Request request;
        while (fazgrond_take_requests(machine.Session, &request, (UIntPtr)1) != UIntPtr.Zero)
            switch (request.Kind)
            {
            case Load: machine.State = machine.Saved[request.Slot]; break;
            case Save: machine.Saved[request.Slot] = machine.State; break;
            case Step: machine.State = Stepped(machine.State, request.Row.Words[0], request.Row.Words[1]); break;
            }
    }

    static void GoesOn(Machine machine)
    {
        uint frames;
        Epoch epoch;
        int code = fazgrond_peer_go_on(machine.Peer, machine.Session, &frames);
        if (code == Nothing)
            return;
        Must(code);
        CarryOutAll(machine);
        Must(fazgrond_peer_epoch(machine.Peer, &epoch));
        machine.Bases.Add(epoch.Base);
    }

    // That of turn 60 isn't put, since its tag isn't that of its name. Nobody gets a player by that of turn 120, for none is free.
    static void Marks(Machine machine, uint turn)
    {
        var mark = fazgrond_mark_for();
        mark.Comes[1] = turn == 60 || turn == 120 ? 1u : 0u;
        mark.Ticket = turn == 60 ? Ticket - 1 : Ticket;
        int code = fazgrond_peer_mark(machine.Peer, machine.Session, (byte)(machine.Me + 1), &mark);
        if (turn == 60)
            Is("the answer to a mark with a wrong ticket", code, WrongTicket);
        else
            Must(code);
    }

    static void Plays(Machine machine, uint turn)
    {
        uint isRunning, frame, hasNews;
        Reached reached;
        Row row;
        Must(fazgrond_peer_poll(machine.Peer, machine.Session, 16 * turn));
        GoesOn(machine);
        Must(fazgrond_peer_is_running(machine.Peer, &isRunning));
        Must(fazgrond_frame(machine.Session, &frame));
        if (machine.Me == turn / 40 % 2 && (turn == 40 || turn == 60 || turn == 80 || turn == 120))
            Marks(machine, turn);
        ulong whole = machine.Bases.Last() + frame;
        if (isRunning != 0 && whole < Frames
            && fazgrond_add_local_input(machine.Session, (byte)(machine.Me + 1), Pressed(machine.Me, whole)) == Ok)
            Must(fazgrond_advance_frame(machine.Session, &reached));
        else if (fazgrond_has_news(machine.Session, &hasNews) == Ok && hasNews != 0)
            Must(fazgrond_synchronize_input(machine.Session, &row));
        CarryOutAll(machine);
    }

    static List<byte[]> Sent(Machine machine, byte to, uint now)
    {
        UIntPtr length;
        var sent = new List<byte[]>();
        if (fazgrond_peer_send(machine.Peer, machine.Session, to, now, bytes, (UIntPtr)Datagram, &length) == Ok)
            sent.Add(Copy(length));
        if (fazgrond_peer_send_before(machine.Peer, to, now, bytes, (UIntPtr)Datagram, &length) == Ok)
            sent.Add(Copy(length));
        return sent;
    }

    static byte[] Copy(UIntPtr length)
    {
        var copy = new byte[(int)length];
        Marshal.Copy((IntPtr)bytes, copy, 0, copy.Length);
        return copy;
    }

    static void Hears(Machine machine, uint now)
    {
        foreach (var datagram in machine.Coming.Dequeue())
            fixed (byte* at = datagram)
                fazgrond_peer_receive(machine.Peer, machine.Session, at, (UIntPtr)datagram.Length, now);
    }

    static void Play(int lag)
    {
        var both = new[] { Opened(0, lag), Opened(1, lag) };
        for (uint turn = 0; turn < 400; turn++)
            foreach (var machine in both)
            {
                Hears(machine, 16 * turn);
                Plays(machine, turn);
                both[1 - machine.Me].Coming.Enqueue(Sent(machine, (byte)(1 - machine.Me), 16 * turn));
            }
        ulong state = 0;
        for (ulong frame = 0; frame < Frames; frame++)
            state = Stepped(state, Pressed(0, frame), Pressed(1, frame));
        foreach (var machine in both)
        {
            uint settled;
            Must(fazgrond_settled(machine.Session, &settled));
            Is("settled frames", machine.Bases.Last() + settled, Frames);
            Is("the state", machine.State, state);
            Is("epochs", string.Join(" ", machine.Bases), string.Join(" ", both[0].Bases));
            Is("how many epochs", machine.Bases.Count, 4);
            fazgrond_peer_close(machine.Peer);
            fazgrond_close(machine.Session);
        }
    }

    public static void Main()
    {
        bytes = (byte*)Marshal.AllocHGlobal(Datagram);
        Is("a ticket", fazgrond_ticket(Comers, 3), Ticket);
        Is("the last one", fazgrond_ticket(Comers, 0xffffffff), 0x6994a5ddfffffffful);
        foreach (int lag in new[] { 1, 3, 5 })
            Play(lag);
        SyncTests.Run();
    }
}

// Two sums, in a list that its states may share with it.
public sealed unsafe class Sums
{
    public uint[] List = new uint[2];
    public readonly uint[][] Slots = new uint[257][];
    public bool Lends, Borrows, Hides;
    uint steps;

    public void CarryOut(Request* request)
    {
        uint slot = request->Slot;
        switch (request->Kind)
        {
        case Save: Slots[slot] = Lends ? List : (uint[])List.Clone(); break;    // its own list goes on to change
        case Load: List = Borrows ? Slots[slot] : (uint[])Slots[slot].Clone(); break;
        case Free: Slots[slot] = null; break;
        case Step: Advance(&request->Row); break;
        }
    }

    void Advance(Row* row)
    {
        for (int player = 0; player < row->Count; player++)
            List[0] = (31 * List[0] + row->Words[player]) % 1009;
        List[1] = (List[1] + List[0]) % 1013;
        List[0] += Hides && ++steps % 100 == 0 ? 1u : 0;    // a counter beside the state
    }

    public ulong Digest(uint slot) { return Slots[slot][0] + 1013ul * Slots[slot][1]; }
}

public static unsafe class SyncTests
{
    static Row[] Rows()
    {
        var rows = new Row[80];
        for (uint frame = 0; frame < rows.Length; frame++)
            fixed (Row* row = &rows[frame])
            {
                row->Count = 2;
                row->Words[0] = frame * 7 % 5;
                row->Words[1] = frame * 3 % 4;
            }
        return rows;
    }

    static void Finds(Sums game, int? frame, int depth = 8)
    {
        var found = SyncTest(Rows(), game.CarryOut, game.Digest, depth);
        if (found != frame || game.Slots.Any(it => it != null))
            throw new InvalidOperationException("the sync test found " + found + ", and not " + frame);
    }

    // Frames are run twice, eight by eight, so that the hundredth step is that of frame 51.
    public static void Run()
    {
        Finds(new Sums(), null);
        Finds(new Sums(), null, 100);
        Finds(new Sums { Lends = true }, 0);
        Finds(new Sums { Borrows = true }, 0);
        Finds(new Sums { Hides = true }, 51);
        Finds(new Sums { Hides = true }, 19, 80);
    }
}
