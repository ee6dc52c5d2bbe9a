// faz_line.cs: what include/faz_line.h declares, for C#. Its comments say what each call does. Compile it with /unsafe.
// It is written by bindings/declare-line.
using System;
using System.Runtime.InteropServices;

public static unsafe class FazLine
{
    const string Library = "faz_line";    // libfaz_line.so on Linux

    public const int Key = 32;
    public const int Signal = 1024;
    public const int Relays = 8;

    // faz_line_way
    public const uint NoWay = 0;
    public const uint Lan = 1;
    public const uint Direct = 2;
    public const uint Relayed = 3;

    // faz_line_stage
    public const uint Looking = 0;
    public const uint Up = 1;
    public const uint Silent = 2;
    public const uint Blocked = 3;

    [StructLayout(LayoutKind.Sequential)]
    public struct Keys
    {
        public fixed byte Open[32];
        public fixed byte Secret[32];
    }

    [StructLayout(LayoutKind.Sequential)]
    public struct Relay
    {
        public byte* Address;
        public ushort Port;
        public byte* User;
        public byte* Password;
        public byte ByTcp;
    }

    [StructLayout(LayoutKind.Sequential)]
    public struct Settings
    {
        public uint Me;
        public uint Other;
        public Keys* Keys;
        public byte* Their;
        public byte* Stun;
        public ushort StunPort;
        public Relay Relays0, Relays1, Relays2, Relays3, Relays4, Relays5, Relays6, Relays7;
        public uint RelayCount;
        public byte RelayOnly;
        public byte AnySender;
    }

    [StructLayout(LayoutKind.Sequential)]
    public struct State
    {
        public uint Stage;
        public uint Way;
        public uint Generation;
        public uint Silence;
        public ulong Sent;
        public ulong Received;
        public ulong Forged;
        public ulong Again;
        public ulong Misnamed;
        public ulong Dropped;
    }

    [DllImport(Library)] public static extern byte faz_line_draw(Keys* keys);
    [DllImport(Library)] public static extern void* faz_line_open(Settings* settings, byte** why);
    [DllImport(Library)] public static extern void faz_line_close(void* line);
    [DllImport(Library)] public static extern void faz_line_turn(void* line, uint now);
    [DllImport(Library)] public static extern byte faz_line_relays(void* line, Relay* relays, uint count);
    [DllImport(Library)] public static extern byte faz_line_signal(void* line, byte* to, UIntPtr room, UIntPtr* length);
    [DllImport(Library)] public static extern byte faz_line_signalled(void* line, byte* bytes, UIntPtr length);
    [DllImport(Library)] public static extern byte faz_line_send(void* line, byte* bytes, UIntPtr length);
    [DllImport(Library)] public static extern byte faz_line_receive(void* line, byte* to, UIntPtr room, UIntPtr* length);
    [DllImport(Library)] public static extern void faz_line_look(void* line, State* state);
    [DllImport(Library)] public static extern ulong faz_line_number(void* line);
}
