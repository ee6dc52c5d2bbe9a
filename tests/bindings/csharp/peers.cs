// Two machines of a match in one process, and a viewer of it, by the calls of fazgrond.cs: a struct that isn't the library's, or an
// argument in a wrong place, and they don't come to play. Then three that carry for each other.
using System;
using System.Runtime.InteropServices;
using static Fazgrond;

public static unsafe class Peers
{
    const int Frames = 100;
    const ulong Number = 0x1122334455667788, LineNumber = 0x8877665544332211;
    static byte* bytes;

    sealed class Machine
    {
        public byte Me;
        public Session* Session;
        public Peer* Peer;
        public ulong State;
        public readonly ulong[] Saved = new ulong[257];
    }

    static void Must(int code)
    {
        if (code != Ok)
            throw new InvalidOperationException("refused: " + code);
    }

    static void* Handle()
    {
        var at = Marshal.AllocHGlobal(sizeof(Session));
        Marshal.Copy(new byte[sizeof(Session)], 0, at, sizeof(Session));
        return (void*)at;
    }

    static ulong Stepped(ulong state, Row* row)
    {
        for (int at = 0; at < row->Count; at++)
            state = (state ^ row->Words[at]) * 0x100000001b3;
        return state;
    }

    // What a machine's player does in a frame.
    static uint Pressed(uint machine, uint frame) { return frame * (machine + 3) / 7 % 4; }

    static Machine Opened(byte me)
    {
        var machine = new Machine { Me = me, Session = (Session*)Handle(), Peer = (Peer*)Handle() };
        var settings = fazgrond_settings_for(4);
        settings.Local = 3u << 2 * me;    // an input is two words
        Must(fazgrond_open(machine.Session, &settings));
        var match = fazgrond_match_for(2, me);
        fazgrond_one_number(&match, Number);
        for (int at = 0; at < 4; at++)
            match.Owners[at] = (uint)at / 2;
        match.Draw = 7ul + me;
        match.Digest = 5;
        match.Words = 2;
        Must(fazgrond_peer_open(machine.Peer, machine.Session, &match));
        return machine;
    }

    static void CarryOutAll(Machine machine)
    {
        Request request;
        while (fazgrond_take_requests(machine.Session, &request, (UIntPtr)1) != UIntPtr.Zero)
            switch (request.Kind)
            {
            case Load:
                machine.State = machine.Saved[request.Slot];
                break;
            case Save:
                machine.Saved[request.Slot] = machine.State;
                break;
            case Step:
                machine.State = Stepped(machine.State, &request.Row);
                break;
            }
    }

    static bool Gives(Machine machine, uint frame)
    {
        for (uint word = 0; word < 2; word++)
            if (fazgrond_add_local_input(machine.Session, (byte)(2 * machine.Me + 1 + word), Pressed(machine.Me, frame) + word) != Ok)
                return false;
        return true;
    }

    static void Plays(Machine machine, uint now)
    {
        uint isRunning, frame, slot;
        Row row;
        Reached reached;
        Must(fazgrond_peer_poll(machine.Peer, machine.Session, now));
        Must(fazgrond_peer_is_running(machine.Peer, &isRunning));
        if (isRunning == 0)
            return;
        Must(fazgrond_frame(machine.Session, &frame));
        if (frame < Frames && Gives(machine, frame))
            Must(fazgrond_advance_frame(machine.Session, &reached));
        else
            Must(fazgrond_synchronize_input(machine.Session, &row));
        CarryOutAll(machine);
        Must(fazgrond_settled_slot(machine.Session, &frame, &slot));
        Must(fazgrond_peer_note_settled(machine.Peer, machine.Session, machine.Saved[slot]));
    }

    static void Sends(Machine machine, Machine other, uint now)
    {
        UIntPtr length;
        Must(fazgrond_peer_send(machine.Peer, machine.Session, other.Me, now, bytes, (UIntPtr)Datagram, &length));
        var code = fazgrond_peer_receive(other.Peer, other.Session, bytes, length, now);
        if (code != Ok && code != NotSealed)    // a play that comes before its sender is known
            Must(code);
    }

    static LineSettings LineOf(ulong draw)
    {
        var settings = new LineSettings { Number = LineNumber, Draw = draw, Digest = 5, Host = 0, Machines = 2, SilentAfter = 5000 };
        for (int at = 0; at < Players; at++)
            settings.Owners[at] = at < 4 ? (uint)at / 2 : NoPlayer;
        return settings;
    }

    static void Watches(Machine host, Line* line, Viewer* viewer, uint now, ref ulong seen)
    {
        UIntPtr length;
        uint rows;
        Row row;
        Must(fazgrond_line_send(line, host.Session, now, bytes, (UIntPtr)Datagram, &length));
        var code = fazgrond_viewer_receive(viewer, bytes, length, now, &rows);
        if (code != NotSealed)
            Must(code);
        while (fazgrond_viewer_row(viewer, &row) == Ok)
            seen = Stepped(seen, &row);
        Must(fazgrond_viewer_send(viewer, now, bytes, (UIntPtr)Datagram, &length));
        code = fazgrond_line_receive(line, bytes, length, now);
        if (code != NotSealed)
            Must(code);
    }

    // Three machines with a player each, two of which don't hear each other from a turn on, for longer than the time of silence.
    static Machine Carrier(byte me)
    {
        var machine = new Machine { Me = me, Session = (Session*)Handle(), Peer = (Peer*)Handle() };
        var settings = fazgrond_settings_for(3);
        settings.Local = 1u << me;
        Must(fazgrond_open(machine.Session, &settings));
        var match = fazgrond_match_for(3, me);
        fazgrond_one_number(&match, Number);
        for (uint at = 0; at < 3; at++)
            match.Owners[at] = at;
        match.Draw = 7ul + me;
        match.SilentAfter = 500;
        Must(fazgrond_peer_open_carrying(machine.Peer, machine.Session, &match));
        return machine;
    }

    static void CarrierPlays(Machine machine, uint now)
    {
        uint isRunning, frame, hasNews;
        Row row;
        Reached reached;
        Event told;
        Must(fazgrond_peer_poll(machine.Peer, machine.Session, now));
        Must(fazgrond_peer_is_running(machine.Peer, &isRunning));
        Must(fazgrond_frame(machine.Session, &frame));
        Must(fazgrond_has_news(machine.Session, &hasNews));
        if (isRunning != 0 && frame < Frames
            && fazgrond_add_local_input(machine.Session, (byte)(machine.Me + 1), Pressed(machine.Me, frame)) == Ok)
            Must(fazgrond_advance_frame(machine.Session, &reached));
        else if (hasNews != 0)
            Must(fazgrond_synchronize_input(machine.Session, &row));
        CarryOutAll(machine);
        while (fazgrond_peer_event(machine.Peer, &told) == Ok)
            Is("who is gone", told.Code == Left || told.Code == Dropped || told.Code == CutOff ? 1ul : 0, 0);
    }

    static void CarrierSends(Machine[] all, Machine machine, uint now)
    {
        UIntPtr length;
        byte to;
        for (to = 0; to < 3; to++)
            if (fazgrond_peer_send(machine.Peer, machine.Session, to, now, bytes, (UIntPtr)Datagram, &length) == Ok)
                Arrives(all, machine.Me, to, length, now);
        while (fazgrond_peer_send_more(machine.Peer, &to, bytes, (UIntPtr)Datagram, &length) == Ok)
            Arrives(all, machine.Me, to, length, now);
    }

    // The line between machines 0 and 1 is broken from the 40th turn on.
    static void Arrives(Machine[] all, byte from, byte to, UIntPtr length, uint now)
    {
        if (now < 16 * 40 || from + to != 1)
            fazgrond_peer_receive(all[to].Peer, all[to].Session, bytes, length, now);
    }

    static void Carry()
    {
        var all = new[] { Carrier(0), Carrier(1), Carrier(2) };
        for (uint turn = 0; turn < 600; turn++)
            foreach (var machine in all)
            {
                CarrierPlays(machine, 16 * turn);
                CarrierSends(all, machine, 16 * turn);
            }
        ulong state = 0;
        Row row;
        row.Count = 3;
        for (uint frame = 0; frame < Frames; frame++)
        {
            for (uint at = 0; at < 3; at++)
                row.Words[at] = Pressed(at, frame);
            state = Stepped(state, &row);
        }
        foreach (var machine in all)
        {
            uint settled;
            Must(fazgrond_settled(machine.Session, &settled));
            Is("settled frames", settled, Frames);
            Is("a machine that carries", machine.State, state);
            fazgrond_peer_close(machine.Peer);
            fazgrond_close(machine.Session);
        }
    }

    // The state after all frames, without a network.
    static ulong Due()
    {
        ulong state = 0;
        Row row;
        row.Count = 4;
        for (uint frame = 0; frame < Frames; frame++)
        {
            for (uint at = 0; at < 4; at++)
                row.Words[at] = Pressed(at / 2, frame) + at % 2;
            state = Stepped(state, &row);
        }
        return state;
    }

    static void Is(string what, ulong value, ulong due)
    {
        if (value != due)
            throw new InvalidOperationException(what + " is " + value + ", and not " + due);
    }

    public static void Main()
    {
        bytes = (byte*)Marshal.AllocHGlobal(Datagram);
        Is("the version", fazgrond_version(), Fazgrond.Version);
        var both = new[] { Opened(0), Opened(1) };
        var line = (Line*)Handle();
        var viewer = (Viewer*)Handle();
        var settings = LineOf(21);
        Must(fazgrond_line_open(line, &settings));
        settings = LineOf(22);
        Must(fazgrond_viewer_open(viewer, &settings));
        ulong seen = 0;
        for (uint turn = 0; turn < 200; turn++)
        {
            uint now = 16 * turn;
            foreach (var machine in both)
                Plays(machine, now);
            Sends(both[0], both[1], now);
            Sends(both[1], both[0], now);
            Watches(both[0], line, viewer, now, ref seen);
        }
        Is("machine 0", both[0].State, Due());
        Is("machine 1", both[1].State, Due());
        Is("the viewer", seen, Due());
        Stats stats;
        Must(fazgrond_peer_stats(both[0].Peer, 1, &stats));
        Is("what is sent", stats.Sent, 200);
        Is("what is refused", stats.Refused, 0);
        LineState state;
        Must(fazgrond_viewer_look(viewer, 3200, &state));
        Is("rows at the viewer", state.Rows, Frames);
        Is("who has stayed without epochs", (ulong)StayedOf(both[0].Peer), (ulong)Nothing);
        Is("what is told before an epoch", (ulong)ToldBefore(line, both[0].Peer), (ulong)Nothing);
        fazgrond_viewer_close(viewer);
        fazgrond_line_close(line);
        Is("what a closed line tells", (ulong)ToldBefore(line, both[0].Peer), (ulong)IsClosed);
        foreach (var machine in both)
        {
            fazgrond_peer_close(machine.Peer);
            fazgrond_close(machine.Session);
            Is("a closed handle", (ulong)FrameOf(machine.Session), (ulong)IsClosed);
        }
        Carry();
    }

    static int StayedOf(Peer* peer)
    {
        uint flag;
        return fazgrond_peer_has_stayed(peer, 1, &flag);
    }

    static int ToldBefore(Line* line, Peer* peer)
    {
        UIntPtr length;
        return fazgrond_line_send_before(line, peer, 3200, bytes, (UIntPtr)Datagram, &length);
    }

    static int FrameOf(Session* session)
    {
        uint frame;
        return fazgrond_frame(session, &frame);
    }
}
