// Two machines with a line in one process, by faz_line.cs. It prints nothing if all is right.
using System;
using System.Diagnostics;
using System.Runtime.InteropServices;
using System.Text;
using System.Threading;
using static FazLine;

static unsafe class Internet
{
    const int Count = 50;
    static readonly Stopwatch clock = Stopwatch.StartNew();

    static void Must(bool holds, string what)
    {
        if (!holds)
            throw new Exception(what);
    }

    static void* Open(uint me, uint other, Keys* keys, byte* their, byte** why, uint relays = 0)
    {
        var settings = new Settings { Me = me, Other = other, Keys = keys, Their = their, RelayCount = relays };
        return faz_line_open(&settings, why);
    }

    static string Words(byte* text)
    {
        return Marshal.PtrToStringAnsi((IntPtr)text);
    }

    static void Refuses(Keys* keys, byte* their)
    {
        byte* why = null;
        Must(Open(1, 1, keys, their, &why) == null && Words(why) == "the two are not two machines of a match", "one machine");
        Must(Open(0, 1, keys, their, &why, 1) == null && Words(why).StartsWith("there are too many relays"), "a relay that isn't there");
        Must(Open(0, 1, keys, null, &why) == null && Words(why) == "no keys are given", "no key");
    }

    static void Carry(void* from, void* to)
    {
        var bytes = stackalloc byte[Signal];
        UIntPtr length;
        faz_line_turn(from, (uint)clock.ElapsedMilliseconds);
        while (faz_line_signal(from, bytes, (UIntPtr)Signal, &length) != 0)
            Must(faz_line_signalled(to, bytes, length) != 0, "a signal");
    }

    static int Hear(void* line, int came)
    {
        var bytes = stackalloc byte[1200];
        UIntPtr length;
        for (; faz_line_receive(line, bytes, (UIntPtr)1200, &length) != 0; came++)
            Must((int)length == 1 + came * 23 && bytes[0] == came, "a datagram");
        return came;
    }

    static State Look(void* line)
    {
        State seen;
        faz_line_look(line, &seen);
        return seen;
    }

    static void Send(void* line, int number)
    {
        var bytes = stackalloc byte[1200];
        bytes[0] = (byte)number;
        Must(faz_line_send(line, bytes, (UIntPtr)(1 + number * 23)) != 0, "a datagram that goes");
    }

    static void Talk(void* one, void* two)
    {
        int sent = 0, ones = 0, twos = 0;
        while (ones < Count || twos < Count)
        {
            Must(clock.ElapsedMilliseconds < 20000, "the other machine");
            Carry(one, two);
            Carry(two, one);
            ones = Hear(one, ones);
            twos = Hear(two, twos);
            if (sent < Count && Look(one).Stage == Up && Look(two).Stage == Up)
            {
                Send(one, sent);
                Send(two, sent++);
            }
            Thread.Sleep(1);
        }
        var seen = Look(one);
        Must(seen.Way == Lan && seen.Received == Count && seen.Sent == Count && seen.Forged == 1 && seen.Misnamed == 0, "what was counted");
    }

    static void Main()
    {
        Keys one, two;
        byte* why = null;
        Must(faz_line_draw(&one) != 0 && faz_line_draw(&two) != 0, "random numbers");
        var told = new Keys[] { one, two };
        fixed (Keys* open = told)
        {
            Refuses(&one, open[1].Open);
            void* first = Open(0, 1, &one, open[1].Open, &why), second = Open(1, 0, &two, open[0].Open, &why);
            Must(first != null && second != null && faz_line_number(first) == faz_line_number(second) && one.Secret[0] == 0, "a line");
            var relay = new Relay { Port = 3478 };
            Must(faz_line_relays(first, &relay, 1) == 0 && faz_line_relays(first, null, 0) != 0, "relays");
            Must(faz_line_signalled(first, open[0].Open, (UIntPtr)3) == 0, "a forged signal");
            Talk(first, second);
            faz_line_close(first);
            faz_line_close(second);
        }
    }
}
