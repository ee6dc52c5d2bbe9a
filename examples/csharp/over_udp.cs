// One machine of the match of two_peers.c, over UDP: over_udp.exe ME PORT ADDRESS PORT. Run one with 0 and one with 1.
using System;
using System.Diagnostics;
using System.Net;
using System.Net.Sockets;
using System.Runtime.InteropServices;
using System.Security.Cryptography;
using System.Text;
using System.Threading;
using static Fazgrond;

public static unsafe class OverUdp
{
    const int Frames = 600, Speed = 10;    // how many times as fast it goes
    const int PastLast = 32;               // turns past the end, so that the other has all of it too
    static readonly ulong[] saved = new ulong[257];
    static readonly byte[] bytes = new byte[Datagram];
    static readonly Session* session = (Session*)Marshal.AllocHGlobal(sizeof(Session));
    static readonly Peer* peer = (Peer*)Marshal.AllocHGlobal(sizeof(Peer));
    static byte me;
    static ulong state;
    static uint wait, settled, slot;

    static void Must(int code)
    {
        if (code != Ok)
            throw new InvalidOperationException("refused: " + code);
    }

    // The game: 31 times the number, and of each player the number times the word.
    static ulong Stepped(Row* row)
    {
        ulong sum = 31 * state;
        for (int at = 0; at < row->Count; at++)
            sum += (row->Gone >> at & 1) != 0 ? 5 : (ulong)(at + 1) * row->Words[at];
        return sum % 1000003;
    }

    static void CarryOutAll()
    {
        Request request;
        while (fazgrond_take_requests(session, &request, (UIntPtr)1) != UIntPtr.Zero)
            switch (request.Kind)
            {
            case Load: state = saved[request.Slot]; break;
            case Save: saved[request.Slot] = state; break;
            case Step: state = Stepped(&request.Row); break;
            }
    }

    static void Open()
    {
        var settings = fazgrond_settings_for(2);
        var match = fazgrond_match_for(2, me);
        var draw = new byte[8];
        RandomNumberGenerator.Create().GetBytes(draw);
        settings.Local = 1u << me;
        settings.Limit = Frames;
        match.Owners[0] = 0;    // machine 0 has player 1
        match.Owners[1] = 1;
        match.Draw = BitConverter.ToUInt64(draw, 0);
        match.SilentAfter = 100000;
        fazgrond_one_number(&match, 0x5eed5eed5eed5eed);
        *session = new Session();    // closed handles
        *peer = new Peer();
        Must(fazgrond_open(session, &settings));
        Must(fazgrond_peer_open(peer, session, &match));
    }

    static void Hear(Socket line, uint now)
    {
        while (line.Poll(0, SelectMode.SelectRead))
            try
            {
                var length = line.Receive(bytes);
                fixed (byte* at = bytes)    // what is refused has changed nothing
                    fazgrond_peer_receive(peer, session, at, (UIntPtr)length, now);
            }
            catch (SocketException) { }    // on Windows, that the other isn't there yet
    }

    // A frame, or at least what came too late for the frames before.
    static void Play()
    {
        Reached reached;
        Row row;
        uint frame, hasNews;
        Must(fazgrond_frame(session, &frame));
        Must(fazgrond_has_news(session, &hasNews));
        uint word = unchecked(frame / (5 + 2u * me) * 2654435761) >> 28;    // what the player holds
        if (wait == 0 && fazgrond_add_local_input(session, (byte)(me + 1), word) == Ok)
            Must(fazgrond_advance_frame(session, &reached));
        else if (hasNews != 0)    // told to wait, or too far ahead, or at the last frame
            Must(fazgrond_synchronize_input(session, &row));
        CarryOutAll();
        wait -= wait > 0 ? 1u : 0;
    }

    // To a program that was begun again, and that its match doesn't take back, the other machine is missing.
    static void EndIfOver(uint code)
    {
        UIntPtr length;
        if (code != Missing && code != Mismatch && code != Dropped && code != Desync)
            return;
        fixed (byte* at = bytes)
            length = fazgrond_text((int)code, at, (UIntPtr)bytes.Length);
        Console.Error.WriteLine("the match is over: {0}", Encoding.ASCII.GetString(bytes, 0, (int)length));
        Environment.Exit(1);
    }

    static void TakeTurn(uint now)
    {
        uint isRunning, rows, place;
        Event happened;
        Must(fazgrond_peer_poll(peer, session, now));
        Must(fazgrond_peer_is_running(peer, &isRunning));
        if (isRunning != 0)    // all machines are there
            Play();
        Must(fazgrond_settled_slot(session, &rows, &place));
        settled = rows;
        slot = place;
        Must(fazgrond_peer_note_settled(peer, session, saved[slot]));
        while (fazgrond_peer_event(peer, &happened) == Ok)
        {
            EndIfOver(happened.Code);
            if (happened.Code == TimeSync)
                wait = happened.FramesAhead;
        }
    }

    static void Send(Socket line, EndPoint other, uint now)
    {
        UIntPtr length;
        int code;
        fixed (byte* at = bytes)
            code = fazgrond_peer_send(peer, session, (byte)(1 - me), now, at, (UIntPtr)bytes.Length, &length);
        if (code == Ok)
            line.SendTo(bytes, (int)length, SocketFlags.None, other);
    }

    public static void Main(string[] words)
    {
        var clock = Stopwatch.StartNew();
        var line = new Socket(AddressFamily.InterNetwork, SocketType.Dgram, ProtocolType.Udp);
        var other = new IPEndPoint(IPAddress.Parse(words[2]), int.Parse(words[3]));
        line.Bind(new IPEndPoint(IPAddress.Any, int.Parse(words[1])));
        me = byte.Parse(words[0]);
        Open();
        for (var past = 0; past < PastLast; past += settled == Frames ? 1 : 0)
        {
            var now = (uint)(clock.ElapsedMilliseconds * Speed);
            Hear(line, now);
            TakeTurn(now);
            Send(line, other, now);
            Thread.Sleep(2);
        }
        Console.WriteLine("machine {0}: settled {1} state {2}", me, settled, saved[slot]);
        fazgrond_peer_close(peer);
        fazgrond_close(session);
    }
}
