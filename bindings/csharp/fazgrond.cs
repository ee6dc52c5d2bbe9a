// fazgrond.cs: what fazgrond.h declares, for C#. Its comments say what each call does, and docs/C.md has whole games.
// Compile it with /unsafe. It is written by bindings/csharp/declare.
using System;
using System.Runtime.InteropServices;

public static unsafe class Fazgrond
{
    const string Library = "fazgrond";    // fazgrond.dll, or libfazgrond.so on Linux

    public const uint Version = 0x000300;
    public const int Players = 8;
    public const uint NoPlayer = 255;
    public const uint Nobody = 254;
    public const uint AsBefore = 0xffffffff;
    public const int Machines = 8;
    public const uint SilentAfter = 5000;
    public const uint NotifyAfter = 750;
    public const int Datagram = 1200;
    public const int HeldWords = 64;
    public const int GuessWords = 24;
    public const int Piece = 1024;
    public const int Asked = 16;
    public const int DigestBytes = 32;
    public const int NoMachine = 255;
    public const int WindowReach = 1024;
    public const int WindowPlaces = 17;
    public const uint Ggpo = 0, Wide = 1;
    public const uint Load = 1, Save = 2, Step = 3, Free = 4, JobLoad = 5, JobSave = 6, JobStep = 7;
    public const uint Local = 1, Remote = 2, Disconnect = 3, Sync = 4, Advance = 5, Graft = 6;
    public const int Ok = 0, InvalidPlayer = 2, PlayerOutOfRange = 3, PredictionThreshold = 4, PlayerDisconnected = 9,
                     InvalidRequest = 11, LocalInputMissing = 101, InputTwice = 102, Gap = 103, Conflict = 104, QueueFull = 105,
                     FrameLimit = 106, NoMemory = 107, Stranger = 108, TooFar = 109, Late = 110, Orphan = 111, Dead = 112,
                     TreeFull = 113, LogFull = 114, NoPlan = 117, Full = 119, NoJob = 120, IsClosed = 201, Pending = 202,
                     Nothing = 203, TooShort = 204, OtherVersion = 205, NotSealed = 301, NoDatagram = 302, InvalidMachine = 303,
                     OwnMachine = 304, MachineGone = 305, Mismatched = 306, Overstated = 307, Ended = 308, OtherSender = 309,
                     NoRows = 310, RowsMissing = 311, Outside = 312, OtherSession = 313, OtherKind = 314, OtherState = 315,
                     Barred = 316, NotNow = 317, PastTheEnd = 318, WrongLength = 319, TooLong = 320, NoMarks = 321,
                     Marked = 322, UnlikeDelays = 323, TwoOwners = 324, TooManyWords = 325, NoNumber = 326,
                     GreatThreshold = 327, LongDelay = 328, OthersDelay = 329, WrongTicket = 330, JobsOut = 331,
                     InputsTooLong = 332, OutOfRange = 333, InputLength = 334;
    public const uint SettingMe = 1, SettingMachines = 2, SettingInputSize = 3, SettingOwner = 4, SettingDelay = 5,
                      SettingProfile = 6, SettingThreshold = 7, SettingHeldTurns = 8, SettingFrameTime = 9;
    public const uint Synchronizing = 1001, Synchronized = 1002, Running = 1003, Disconnected = 1004, TimeSync = 1005,
                      Interrupted = 1006, Resumed = 1007, Left = 1101, Desync = 1102, Mismatch = 1103, Dropped = 1104,
                      Restarted = 1105, Stalled = 1106, Refused = 1107, Missing = 1108, CutOff = 1109, Strangers = 1110,
                      TwoMarks = 1111;
    public const uint ByeLeaves = 1, ByeDesync = 2, ByeError = 3, ByeOwn = 16;
    public const uint PieceAgain = 1, PieceTaken = 2, StateWhole = 3, StateWrong = 4;

    [StructLayout(LayoutKind.Sequential)]
    public struct Session
    {
        public byte Full;
        public IntPtr At;
    }

    [StructLayout(LayoutKind.Sequential)]
    public struct Settings
    {
        public uint Size;
        public uint Profile;
        public uint Players;
        public uint Local;
        public uint Threshold;
        public uint Limit;
        public uint Log;
        public fixed uint Delays[Fazgrond.Players];
        public fixed uint Masks[Fazgrond.Players];
    }

    [StructLayout(LayoutKind.Sequential)]
    public struct Row
    {
        public uint Count;
        public uint Gone;
        public fixed uint Words[Fazgrond.Players];
    }

    [StructLayout(LayoutKind.Sequential)]
    public struct Request
    {
        public uint Kind;
        public uint Slot;
        public Row Row;
    }

    [StructLayout(LayoutKind.Sequential)]
    public struct Reached
    {
        public uint Frame;
        public uint From;
        public uint Rerun;
    }

    [StructLayout(LayoutKind.Sequential)]
    public struct Entry
    {
        public uint Kind;
        public uint Player;
        public uint Frame;
        public uint Word;
    }

    [StructLayout(LayoutKind.Sequential)]
    public struct MatchSettings
    {
        public uint Size;
        public uint Me;
        public uint Machines;
        public uint InputSize;
        public fixed ulong Numbers[Fazgrond.Machines];
        public ulong Draw;
        public ulong Digest;
        public ulong Opening;
        public ulong Comers;
        public ulong Epoch;
        public ulong Base;
        public fixed uint Owners[Fazgrond.Players];
        public fixed uint Delays[Fazgrond.Players];
        public fixed uint Masks[Fazgrond.Players];
        public uint Profile;
        public uint Threshold;
        public uint Limit;
        public uint Log;
        public uint SilentAfter;
        public uint NotifyAfter;
        public uint StalledAfter;
        public uint HeldTurns;
        public uint Carries;
        public uint Lasts;
        public uint FrameTime;
    }

    [StructLayout(LayoutKind.Sequential)]
    public struct Unfit
    {
        public uint Setting;
        public uint Player;
        public uint Value;
    }

    [StructLayout(LayoutKind.Sequential)]
    public struct Turn
    {
        public uint IsRunning;
        public uint HasPlayed;
        public uint HasGoneOn;
        public uint HasRequests;
        public uint Frame;
        public uint Handed;
        public int Failed;
        public int WaitsFor;
        public uint NextIn;
    }

    [StructLayout(LayoutKind.Sequential)]
    public struct Event
    {
        public uint Code;
        public uint Machine;
        public uint Player;
        public uint Count;
        public uint Total;
        public uint FramesAhead;
        public uint DisconnectIn;
        public uint Frame;
        public uint Field;
        public uint Bye;
    }

    [StructLayout(LayoutKind.Sequential)]
    public struct Stats
    {
        public uint IsMeasured;
        public uint RoundTrip;
        public uint Sent;
        public uint Received;
        public uint Lost;
        public uint WordsQueued;
        public int FramesBehind;
        public int TheirFramesBehind;
        public uint Refused;
        public uint Dropped;
        public uint Restarted;
    }

    [StructLayout(LayoutKind.Sequential)]
    public struct EpochNow
    {
        public ulong Epoch;
        public ulong Base;
        public uint Machines;
        public uint Threshold;
        public fixed uint Owners[Fazgrond.Players];
        public fixed uint Delays[Fazgrond.Players];
        public fixed uint Stayed[Fazgrond.Machines];
    }

    [StructLayout(LayoutKind.Sequential)]
    public struct Mark
    {
        public uint Size;
        public uint Threshold;
        public ulong Ticket;
        public fixed uint Comes[Fazgrond.Players];
        public fixed uint Delays[Fazgrond.Players];
    }

    [StructLayout(LayoutKind.Sequential)]
    public struct Peer
    {
        public byte Full;
        public IntPtr At;
    }

    [StructLayout(LayoutKind.Sequential)]
    public struct Match
    {
        public uint Size;
        public fixed ulong Numbers[Fazgrond.Machines];
        public ulong Draw;
        public ulong Digest;
        public ulong Opening;
        public ulong Comers;
        public uint Me;
        public uint Machines;
        public fixed uint Owners[Fazgrond.Players];
        public uint SilentAfter;
        public uint NotifyAfter;
        public uint StalledAfter;
        public uint Words;
        public uint HeldTurns;
    }

    [StructLayout(LayoutKind.Sequential)]
    public struct Epoch
    {
        public uint Size;
        public uint Words;
        public uint Threshold;
        public uint Machines;
        public ulong Id;
        public ulong Base;
        public fixed uint Owners[Fazgrond.Players];
        public fixed uint Delays[Fazgrond.Players];
    }

    [StructLayout(LayoutKind.Sequential)]
    public struct Line
    {
        public byte Full;
        public IntPtr At;
    }

    [StructLayout(LayoutKind.Sequential)]
    public struct Viewer
    {
        public byte Full;
        public IntPtr At;
    }

    [StructLayout(LayoutKind.Sequential)]
    public struct LineSettings
    {
        public ulong Number;
        public ulong Draw;
        public ulong Digest;
        public ulong Opening;
        public uint Host;
        public uint Machines;
        public fixed uint Owners[Fazgrond.Players];
        public uint SilentAfter;
    }

    [StructLayout(LayoutKind.Sequential)]
    public struct LineState
    {
        public uint Rows;
        public uint Settled;
        public uint Silence;
        public uint IsPlaying;
        public uint HasEnded;
        public uint IsSilent;
    }

    [StructLayout(LayoutKind.Sequential)]
    public struct Habits
    {
        public byte Full;
        public IntPtr At;
    }

    [StructLayout(LayoutKind.Sequential)]
    public struct Foreseen
    {
        public uint Count;
        public uint Worth;
        public fixed uint Words[Fazgrond.GuessWords];
    }

    [StructLayout(LayoutKind.Sequential)]
    public struct Giver
    {
        public byte Full;
        public IntPtr At;
    }

    [StructLayout(LayoutKind.Sequential)]
    public struct Taker
    {
        public byte Full;
        public IntPtr At;
    }

    [StructLayout(LayoutKind.Sequential)]
    public struct StateName
    {
        public ulong Which;
        public uint Frame;
        public uint Length;
        public fixed byte Digest[Fazgrond.DigestBytes];
    }

    [StructLayout(LayoutKind.Sequential)]
    public struct Heard
    {
        public uint What;
        public uint Machine;
    }

    [StructLayout(LayoutKind.Sequential)]
    public struct TakerState
    {
        public UIntPtr Pieces;
        public UIntPtr Left;
    }

    [StructLayout(LayoutKind.Sequential)]
    public struct Window
    {
        public ulong Highest;
        public fixed ulong Runs[Fazgrond.WindowPlaces];
        public fixed ulong Bits[Fazgrond.WindowPlaces];
    }

    [DllImport(Library)] public static extern uint fazgrond_version();
    [DllImport(Library)] public static extern UIntPtr fazgrond_text(int code, byte* @out, UIntPtr room);
    [DllImport(Library)] public static extern int fazgrond_open(Session* session, Settings* settings);
    [DllImport(Library)] public static extern void fazgrond_close(Session* session);
    [DllImport(Library)] public static extern int fazgrond_add_local_input(Session* session, byte player, uint word);
    [DllImport(Library)] public static extern int fazgrond_remote_input(Session* session, byte player, uint frame, uint word,
                                                                        uint* repeated);
    [DllImport(Library)] public static extern int fazgrond_disconnect_player(Session* session, byte player);
    [DllImport(Library)] public static extern int fazgrond_synchronize_input(Session* session, Row* row);
    [DllImport(Library)] public static extern int fazgrond_advance_frame(Session* session, Reached* reached);
    [DllImport(Library)] public static extern int fazgrond_has_news(Session* session, uint* flag);
    [DllImport(Library)] public static extern UIntPtr fazgrond_take_requests(Session* session, Request* @out, UIntPtr room);
    [DllImport(Library)] public static extern int fazgrond_guess(Session* session, byte player, uint* words, UIntPtr count,
                                                                 uint until, uint* job);
    [DllImport(Library)] public static extern int fazgrond_graft(Session* session, uint job, uint* added);
    [DllImport(Library)] public static extern int fazgrond_forget(Session* session, uint job);
    [DllImport(Library)] public static extern int fazgrond_limit_slots(Session* session, uint slots);
    [DllImport(Library)] public static extern int fazgrond_reserve_log(Session* session, uint events);
    [DllImport(Library)] public static extern int fazgrond_frame(Session* session, uint* frame);
    [DllImport(Library)] public static extern int fazgrond_settled(Session* session, uint* rows);
    [DllImport(Library)] public static extern int fazgrond_settled_row(Session* session, uint frame, Row* row);
    [DllImport(Library)] public static extern int fazgrond_settled_slot(Session* session, uint* frame, uint* slot);
    [DllImport(Library)] public static extern int fazgrond_confirmed(Session* session, byte player, uint* words);
    [DllImport(Library)] public static extern int fazgrond_confirmed_word(Session* session, byte player, uint frame, uint* word);
    [DllImport(Library)] public static extern int fazgrond_input_frame(Session* session, byte player, uint* frame);
    [DllImport(Library)] public static extern int fazgrond_log_length(Session* session, UIntPtr* entries);
    [DllImport(Library)] public static extern int fazgrond_log_entry(Session* session, UIntPtr place, Entry* entry);
    [DllImport(Library)] public static extern int fazgrond_note_advantages(Session* session, int local, int remote);
    [DllImport(Library)] public static extern int fazgrond_frames_ahead(Session* session, uint* frames);
    [DllImport(Library)] public static extern int fazgrond_claim(Session* session, byte* @out, UIntPtr room, UIntPtr* length);
    [DllImport(Library)] public static extern ulong fazgrond_ticket(ulong comers, uint name);
    [DllImport(Library)] public static extern int fazgrond_match_open(Session* session, MatchSettings* settings, Unfit* why);
    [DllImport(Library)] public static extern int fazgrond_match_receive(Session* session, byte* bytes, UIntPtr length, uint now);
    [DllImport(Library)] public static extern int fazgrond_match_turn(Session* session, byte* inputs, UIntPtr length, uint now,
                                                                      Turn* turn);
    [DllImport(Library)] public static extern int fazgrond_match_next(Session* session, byte* machine, byte* @out, UIntPtr room,
                                                                      UIntPtr* length);
    [DllImport(Library)] public static extern int fazgrond_match_event(Session* session, Event* @event);
    [DllImport(Library)] public static extern int fazgrond_match_note(Session* session, ulong digest);
    [DllImport(Library)] public static extern int fazgrond_match_leave(Session* session, byte why);
    [DllImport(Library)] public static extern int fazgrond_match_disconnect(Session* session, byte machine);
    [DllImport(Library)] public static extern int fazgrond_match_mark(Session* session, byte player, Mark* mark);
    [DllImport(Library)] public static extern int fazgrond_match_stats(Session* session, byte machine, Stats* stats);
    [DllImport(Library)] public static extern int fazgrond_match_epoch(Session* session, EpochNow* epoch);
    [DllImport(Library)] public static extern UIntPtr fazgrond_match_waiting(Session* session, Entry* @out, UIntPtr room);
    [DllImport(Library)] public static extern int fazgrond_match_rerun(Session* session, uint count, uint* frames);
    [DllImport(Library)] public static extern int fazgrond_match_is_pressed(Session* session, uint* flag);
    [DllImport(Library)] public static extern int fazgrond_match_guess(Session* session, uint until, uint* job);
    [DllImport(Library)] public static extern int fazgrond_match_hand_over(Session* session, uint count);
    [DllImport(Library)] public static extern int fazgrond_peer_open(Peer* peer, Session* session, Match* match);
    [DllImport(Library)] public static extern int fazgrond_peer_open_carrying(Peer* peer, Session* session, Match* match);
    [DllImport(Library)] public static extern int fazgrond_peer_receive(Peer* peer, Session* session, byte* bytes,
                                                                        UIntPtr length, uint now);
    [DllImport(Library)] public static extern int fazgrond_peer_poll(Peer* peer, Session* session, uint now);
    [DllImport(Library)] public static extern int fazgrond_peer_is_running(Peer* peer, uint* flag);
    [DllImport(Library)] public static extern int fazgrond_peer_send(Peer* peer, Session* session, byte machine, uint now,
                                                                     byte* @out, UIntPtr room, UIntPtr* length);
    [DllImport(Library)] public static extern int fazgrond_peer_send_more(Peer* peer, byte* machine, byte* @out, UIntPtr room,
                                                                          UIntPtr* length);
    [DllImport(Library)] public static extern int fazgrond_peer_bye(Peer* peer, byte machine, byte why, byte* @out,
                                                                    UIntPtr room, UIntPtr* length);
    [DllImport(Library)] public static extern int fazgrond_peer_disconnect(Peer* peer, byte machine);
    [DllImport(Library)] public static extern int fazgrond_peer_note_settled(Peer* peer, Session* session, ulong digest);
    [DllImport(Library)] public static extern int fazgrond_peer_event(Peer* peer, Event* @event);
    [DllImport(Library)] public static extern int fazgrond_peer_stats(Peer* peer, byte machine, Stats* stats);
    [DllImport(Library)] public static extern UIntPtr fazgrond_peer_waiting(Peer* peer, Entry* @out, UIntPtr room);
    [DllImport(Library)] public static extern int fazgrond_peer_rerun(Peer* peer, Session* session, uint count, uint* frames);
    [DllImport(Library)] public static extern int fazgrond_peer_guess(Peer* peer, Session* session, uint until, uint* job);
    [DllImport(Library)] public static extern int fazgrond_peer_hand_over(Peer* peer, Session* session, uint count);
    [DllImport(Library)] public static extern int fazgrond_peer_hand_over_due(Peer* peer, Session* session, uint* handed);
    [DllImport(Library)] public static extern int fazgrond_peer_is_pressed(Peer* peer, Session* session, uint* flag);
    [DllImport(Library)] public static extern int fazgrond_peer_open_lasting(Peer* peer, Session* session, Match* match,
                                                                             Epoch* epoch);
    [DllImport(Library)] public static extern int fazgrond_peer_epoch(Peer* peer, Epoch* epoch);
    [DllImport(Library)] public static extern int fazgrond_peer_has_stayed(Peer* peer, byte machine, uint* flag);
    [DllImport(Library)] public static extern int fazgrond_peer_mark(Peer* peer, Session* session, byte player, Mark* mark);
    [DllImport(Library)] public static extern int fazgrond_peer_go_on(Peer* peer, Session* session, uint* frames);
    [DllImport(Library)] public static extern int fazgrond_peer_send_before(Peer* peer, byte machine, uint now, byte* @out,
                                                                            UIntPtr room, UIntPtr* length);
    [DllImport(Library)] public static extern int fazgrond_line_open(Line* line, LineSettings* settings);
    [DllImport(Library)] public static extern int fazgrond_line_receive(Line* line, byte* bytes, UIntPtr length, uint now);
    [DllImport(Library)] public static extern int fazgrond_line_send(Line* line, Session* session, uint now, byte* @out,
                                                                     UIntPtr room, UIntPtr* length);
    [DllImport(Library)] public static extern int fazgrond_line_send_before(Line* line, Peer* peer, uint now, byte* @out,
                                                                            UIntPtr room, UIntPtr* length);
    [DllImport(Library)] public static extern int fazgrond_line_bye(Line* line, byte* @out, UIntPtr room, UIntPtr* length);
    [DllImport(Library)] public static extern int fazgrond_line_look(Line* line, uint now, LineState* state);
    [DllImport(Library)] public static extern int fazgrond_viewer_open(Viewer* viewer, LineSettings* settings);
    [DllImport(Library)] public static extern int fazgrond_viewer_receive(Viewer* viewer, byte* bytes, UIntPtr length, uint now,
                                                                          uint* rows);
    [DllImport(Library)] public static extern int fazgrond_viewer_send(Viewer* viewer, uint now, byte* @out, UIntPtr room,
                                                                       UIntPtr* length);
    [DllImport(Library)] public static extern int fazgrond_viewer_bye(Viewer* viewer, byte* @out, UIntPtr room, UIntPtr* length);
    [DllImport(Library)] public static extern int fazgrond_viewer_row(Viewer* viewer, Row* row);
    [DllImport(Library)] public static extern int fazgrond_viewer_look(Viewer* viewer, uint now, LineState* state);
    [DllImport(Library)] public static extern int fazgrond_habits_open(Habits* habits, uint* parts, UIntPtr part_count,
                                                                       uint* likely, UIntPtr likely_count);
    [DllImport(Library)] public static extern int fazgrond_habits_note(Habits* habits, uint word);
    [DllImport(Library)] public static extern UIntPtr fazgrond_habits_guesses(Habits* habits, uint frames, Foreseen* @out,
                                                                              UIntPtr room);
    [DllImport(Library)] public static extern int fazgrond_giver_open(Giver* giver, ulong which, uint frame, byte* bytes,
                                                                      UIntPtr length);
    [DllImport(Library)] public static extern int fazgrond_giver_name(Giver* giver, StateName* name);
    [DllImport(Library)] public static extern int fazgrond_giver_bytes(Giver* giver, byte* @out, UIntPtr room);
    [DllImport(Library)] public static extern int fazgrond_giver_reply(Giver* giver, ulong number, byte me, byte* bytes,
                                                                       UIntPtr length, UIntPtr place, byte* @out, UIntPtr room,
                                                                       UIntPtr* size);
    [DllImport(Library)] public static extern int fazgrond_taker_open(Taker* taker, StateName* name, uint limit);
    [DllImport(Library)] public static extern int fazgrond_taker_name(Taker* taker, StateName* name);
    [DllImport(Library)] public static extern int fazgrond_taker_look(Taker* taker, TakerState* state);
    [DllImport(Library)] public static extern int fazgrond_taker_send(Taker* taker, ulong number, byte me, UIntPtr most,
                                                                      byte* @out, UIntPtr room, UIntPtr* size);
    [DllImport(Library)] public static extern int fazgrond_taker_receive(Taker* taker, ulong number, byte* bytes,
                                                                         UIntPtr length, Heard* heard);
    [DllImport(Library)] public static extern int fazgrond_taker_takes_of(Taker* taker, byte machine, uint* flag);
    [DllImport(Library)] public static extern int fazgrond_taker_take_of(Taker* taker, byte machine);
    [DllImport(Library)] public static extern int fazgrond_taker_bytes(Taker* taker, byte* @out, UIntPtr room);
    [DllImport(Library)] public static extern int fazgrond_state_sender(byte* bytes, UIntPtr length, byte* machine);
    [DllImport(Library)] public static extern ulong fazgrond_state_digest(StateName* name, ulong digest);
    [DllImport(Library)] public static extern int fazgrond_state_ask(ulong number, byte me, ulong which, uint frame, byte* @out,
                                                                     UIntPtr room, UIntPtr* size);
    [DllImport(Library)] public static extern int fazgrond_state_told(ulong number, byte* bytes, UIntPtr length, StateName* name);
    [DllImport(Library)] public static extern uint fazgrond_window_is_new(Window* window, ulong number);
    [DllImport(Library)] public static extern uint fazgrond_window_note(Window* window, ulong number);

    public static Settings fazgrond_settings_for(uint players)
    {
        var made = new Settings();
        made.Size = (uint)sizeof(Settings);
        made.Profile = players <= 4 ? Ggpo : Wide;
        made.Players = players;
        made.Threshold = players <= 4 ? 8u : 15u;
        made.Limit = 1048576u;
        made.Log = 16777216u;
        for (int at = 0; at < Players; at++)
            made.Masks[at] = 0xffffffff;
        return made;
    }

    public static MatchSettings fazgrond_match_settings_for(uint machines, uint me)
    {
        var made = new MatchSettings();
        made.Size = (uint)sizeof(MatchSettings);
        made.Me = me;
        made.Machines = machines;
        made.InputSize = 4u;
        made.Profile = Ggpo;
        made.Threshold = 8u;
        made.Limit = 1048576u;
        made.Log = 16777216u;
        made.SilentAfter = SilentAfter;
        made.NotifyAfter = NotifyAfter;
        made.FrameTime = 16667u;
        for (int at = 0; at < Players; at++)
        {
            made.Owners[at] = NoPlayer;
            made.Masks[at] = 0xffffffff;
        }
        return made;
    }

    public static Mark fazgrond_mark_for()
    {
        var made = new Mark();
        made.Size = (uint)sizeof(Mark);
        for (int at = 0; at < Players; at++)
            made.Delays[at] = AsBefore;
        return made;
    }

    public static Match fazgrond_match_for(uint machines, uint me)
    {
        var made = new Match();
        made.Size = (uint)sizeof(Match);
        made.Me = me;
        made.Machines = machines;
        made.SilentAfter = SilentAfter;
        made.NotifyAfter = NotifyAfter;
        made.Words = 1u;
        for (int at = 0; at < Players; at++)
            made.Owners[at] = NoPlayer;
        return made;
    }

    public static Epoch fazgrond_epoch_for(Match* match, Settings* settings)
    {
        var made = new Epoch();
        made.Size = (uint)sizeof(Epoch);
        made.Words = match->Words;
        made.Threshold = settings->Threshold;
        made.Machines = match->Machines;
        for (int at = 0; at < Players; at++)
        {
            made.Owners[at] = match->Owners[at];
            made.Delays[at] = settings->Delays[at];
        }
        return made;
    }

    public static void fazgrond_one_number(Match* match, ulong number)
    {
        for (int at = 0; at < Machines; at++)
            match->Numbers[at] = number;
    }

    public static void fazgrond_match_one_number(MatchSettings* settings, ulong number)
    {
        for (int at = 0; at < Machines; at++)
            settings->Numbers[at] = number;
    }

    public static byte* fazgrond_input_of(Row* row, uint player, uint input_size)
    {
        return (byte*)&row->Words[player * ((input_size + 3) / 4)];
    }

    public static uint fazgrond_epoch_has(Epoch* epoch, uint machine)
    {
        for (int at = 0; at < Players; at++)
            if (machine < Machines && epoch->Owners[at] == machine)
                return 1;
        return 0;
    }

    // Carries out a request, as those that a session leaves; and makes a number of the state in a slot, which is another one for most
    // other states.
    public delegate void CarryOut(Request* request);
    public delegate ulong DigestOf(uint slot);

    // A sync test: does a game come out the same when it is run again? It has requests carried out: to run frames with these rows, `depth`
    // at a time, to go back to the state before them, and to run them once more. The first frame that comes out another, or whose state
    // before it has changed since it was saved; null if there is none. Slots from 0 to `depth` + 1 are used.
    public static int? SyncTest(Row[] rows, CarryOut carryOut, DigestOf digestOf, int depth = 8)
    {
        if (depth < 1)
            throw new ArgumentOutOfRangeException("depth", depth, "a frame at least is needed");
        for (int first = 0; first < rows.Length; first += depth)
        {
            var some = new Row[Math.Min(depth, rows.Length - first)];
            Array.Copy(rows, first, some, 0, some.Length);
            int other = FirstOther(some, carryOut, digestOf);
            if (other <= some.Length)
                return first + other;
        }
        return null;
    }

    // Which of some frames is the first that comes out another; more than there are if none does.
    static int FirstOther(Row[] rows, CarryOut carryOut, DigestOf digestOf)
    {
        uint last = (uint)rows.Length + 1;
        int other = rows.Length + 1;
        var digests = new ulong[last];
        Asks(carryOut, Save, 0, new Row());
        digests[0] = digestOf(0);
        for (uint at = 1; at < last; at++)
            digests[at] = Tested(rows[at - 1], at, carryOut, digestOf);
        Asks(carryOut, Load, 0, new Row());
        for (uint at = 1; at < last; at++)
        {
            if (Tested(rows[at - 1], last, carryOut, digestOf) != digests[at])
                other = Math.Min(other, (int)at - 1);
            Asks(carryOut, Free, last, new Row());
        }
        for (uint at = 0; at < last; at++)
        {
            if (digestOf(at) != digests[at])
                other = Math.Min(other, (int)at);
            Asks(carryOut, Free, at, new Row());
        }
        return other;
    }

    static ulong Tested(Row row, uint slot, CarryOut carryOut, DigestOf digestOf)
    {
        Asks(carryOut, Step, 0, row);
        Asks(carryOut, Save, slot, new Row());
        return digestOf(slot);
    }

    static void Asks(CarryOut carryOut, uint kind, uint slot, Row row)
    {
        var request = new Request { Kind = kind, Slot = slot, Row = row };
        carryOut(&request);
    }

    public static void fazgrond_peer_close(Peer* peer) { fazgrond_close((Session*)peer); }
    public static void fazgrond_line_close(Line* line) { fazgrond_close((Session*)line); }
    public static void fazgrond_viewer_close(Viewer* viewer) { fazgrond_close((Session*)viewer); }
    public static void fazgrond_habits_close(Habits* habits) { fazgrond_close((Session*)habits); }
    public static void fazgrond_giver_close(Giver* giver) { fazgrond_close((Session*)giver); }
    public static void fazgrond_taker_close(Taker* taker) { fazgrond_close((Session*)taker); }
}
