// What a turn costs in C#: mcs -unsafe -optimize+ -out:cs_frames.exe bindings/csharp/fazgrond.cs bench/cs_frames.cs, after `make`, and
// LD_LIBRARY_PATH=out mono cs_frames.exe.
//
// The games are those of bench/c_frames.c: a frame is all calls and requests of a turn, and each line is the least of nine runs.
// The last one is two machines with peers beside their sessions: a turn of one is all its calls, with a datagram that comes and
// one that goes.
using System;
using System.Diagnostics;
using System.Runtime.InteropServices;
using static Fazgrond;

public static unsafe class CsFrames
{
    const uint Frames = 20000;
    const int Runs = 9, Room = 32;

    static void Must(int code)
    {
        if (code != Ok)
            throw new InvalidOperationException("refused: " + code);
    }

    static double Now() { return Stopwatch.GetTimestamp() * 1e9 / Stopwatch.Frequency; }

    sealed class Game
    {
        public readonly Session* Session = (Session*)Marshal.AllocHGlobal(sizeof(Session));
        public ulong Steps;
        ulong state;
        readonly ulong[] saved = new ulong[257];

        public Game(int me)
        {
            var settings = fazgrond_settings_for(2);
            settings.Local = 1u << me;
            *Session = new Session();
            Must(fazgrond_open(Session, &settings));
        }

        public void Close()
        {
            fazgrond_close(Session);
            Marshal.FreeHGlobal((IntPtr)Session);
        }

        void CarryOut(Request* request)
        {
            switch (request->Kind)
            {
            case Load: state = saved[request->Slot]; break;
            case Save: saved[request->Slot] = state; break;
            case Step:
                state = (10 * state + request->Row.Words[0] + 2 * (ulong)request->Row.Words[1]) % 1000000;
                Steps++;
                break;
            }
        }

        public void CarryOutAll()
        {
            var requests = stackalloc Request[Room];
            for (uint count; (count = (uint)fazgrond_take_requests(Session, requests, (UIntPtr)Room)) > 0;)
                for (uint at = 0; at < count; at++)
                    CarryOut(&requests[at]);
        }
    }

    // A match of which player 2's words come so many frames late.
    static void Play(Game game, uint late, bool changes)
    {
        Row row;
        Reached reached;
        uint repeated;
        for (uint frame = 0; frame < Frames; frame++)
        {
            if (frame >= late)
            {
                Must(fazgrond_remote_input(game.Session, 2, frame - late, changes ? frame - late : 0, &repeated));
                if (late > 0)
                {
                    Must(fazgrond_synchronize_input(game.Session, &row));
                    game.CarryOutAll();
                }
            }
            Must(fazgrond_add_local_input(game.Session, 1, frame));
            Must(fazgrond_advance_frame(game.Session, &reached));
            game.CarryOutAll();
        }
    }

    static void Measure(string what, uint late, bool changes)
    {
        double least = double.MaxValue, steps = 0;
        for (int run = 0; run < Runs; run++)
        {
            var game = new Game(0);
            var from = Now();
            Play(game, late, changes);
            least = Math.Min(least, (Now() - from) / Frames);
            steps = (double)game.Steps / Frames;
            game.Close();
        }
        Console.WriteLine("{0,-38} {1,7:F0} ns a frame, {2:F2} steps", what, least, steps);
    }

    sealed class Machine
    {
        public readonly Game Game;
        readonly byte me;
        readonly Peer* peer = (Peer*)Marshal.AllocHGlobal(sizeof(Peer));
        readonly byte* came = (byte*)Marshal.AllocHGlobal(Datagram);
        UIntPtr length = UIntPtr.Zero;

        public Machine(byte me)
        {
            var match = fazgrond_match_for(2, me);
            match.Owners[0] = 0;
            match.Owners[1] = 1;
            match.Draw = 1ul + me;
            match.SilentAfter = 5000;
            fazgrond_one_number(&match, 7);
            this.me = me;
            Game = new Game(me);
            *peer = new Peer();
            Must(fazgrond_peer_open(peer, Game.Session, &match));
        }

        public void Close()
        {
            fazgrond_peer_close(peer);
            Marshal.FreeHGlobal((IntPtr)peer);
            Marshal.FreeHGlobal((IntPtr)came);
            Game.Close();
        }

        public void TakeTurn(Machine other, uint turn)
        {
            Reached reached;
            UIntPtr sent;
            uint isRunning, now = turn * 16;
            if (length != UIntPtr.Zero)    // a first play can't be opened yet
                fazgrond_peer_receive(peer, Game.Session, came, length, now);
            Must(fazgrond_peer_poll(peer, Game.Session, now));
            Must(fazgrond_peer_is_running(peer, &isRunning));
            if (isRunning != 0 && fazgrond_add_local_input(Game.Session, (byte)(me + 1), turn) == Ok)
                Must(fazgrond_advance_frame(Game.Session, &reached));
            Game.CarryOutAll();
            Must(fazgrond_peer_send(peer, Game.Session, other.me, now, other.came, (UIntPtr)Datagram, &sent));
            other.length = sent;
        }
    }

    static void MeasurePeers()
    {
        double least = double.MaxValue, steps = 0;
        uint frame = 0;
        for (int run = 0; run < Runs; run++)
        {
            Machine one = new Machine(0), two = new Machine(1);
            var from = Now();
            for (uint turn = 0; turn < Frames; turn++)
            {
                one.TakeTurn(two, turn);
                two.TakeTurn(one, turn);
            }
            least = Math.Min(least, (Now() - from) / Frames / 2);
            steps = (double)one.Game.Steps / Frames;
            Must(fazgrond_frame(one.Game.Session, &frame));
            one.Close();
            two.Close();
        }
        Console.WriteLine("{0,-38} {1,7:F0} ns a turn, {2:F2} steps, {3:F2} frames", "two peers, a turn of one", least, steps,
                          (double)frame / Frames);
    }

    public static void Main()
    {
        Measure("each word in time, no rollback", 0, true);
        Measure("each word 6 frames late, as predicted", 6, false);
        Measure("each word 6 frames late, another one", 6, true);
        Measure("each word 2 frames late, another one", 2, true);
        MeasurePeers();
    }
}
