--  The certified ARINC 429 concentrator from Ada: the calls of include/dc429.h, which says what each takes, answers and owes.
--  An Engine is never copied (it is limited), and is in one call at a time.
with Interfaces;   use Interfaces;
with Interfaces.C; use Interfaces.C;
with System;

package Dc429 is

   type Engine is limited private;

   Longest_Name : constant := 16;

   --  Why tables or a certificate are not accepted.
   type Fault is record
      Kind   : Unsigned_32;   --  'M', 'T', 'K', 'C' or 'F' as a number; 0: no fault
      Code   : Unsigned_32;
      Place  : Unsigned_32;
      Window : Unsigned_32;
      Index  : size_t;
   end record
   with Convention => C;

   type Kind_Of_Reply is new Unsigned_32;
   Nothing     : constant Kind_Of_Reply := 0;
   Queued      : constant Kind_Of_Reply := 1;
   Bad_Parity  : constant Kind_Of_Reply := 2;
   Undeclared  : constant Kind_Of_Reply := 3;
   Too_Early   : constant Kind_Of_Reply := 4;
   Overrun     : constant Kind_Of_Reply := 5;
   Latched     : constant Kind_Of_Reply := 6;
   Took        : constant Kind_Of_Reply := 7;
   Empty       : constant Kind_Of_Reply := 8;
   Sent        : constant Kind_Of_Reply := 9;
   Idle        : constant Kind_Of_Reply := 10;
   Now         : constant Kind_Of_Reply := 11;
   Spent       : constant Kind_Of_Reply := 32;
   Too_Soon    : constant Kind_Of_Reply := 33;
   Owed_Router : constant Kind_Of_Reply := 34;
   Owed_Output : constant Kind_Of_Reply := 35;
   Tick_Limit  : constant Kind_Of_Reply := 36;
   Unknown     : constant Kind_Of_Reply := 37;

   --  What an engine replies to an event, or why it refuses it.
   type Reply is record
      Kind    : Kind_Of_Reply;
      Label   : Unsigned_32;
      Word    : Unsigned_32;
      Backlog : Unsigned_32;
      Number  : size_t;
      Tick    : Unsigned_64;
   end record
   with Convention => C;

   type Status is new Unsigned_32;
   Ok        : constant Status := 0;
   Refused   : constant Status := 1;
   Is_Closed : constant Status := 2;

   type List is new Unsigned_32;
   Bus    : constant List := 1;
   Stream : constant List := 2;
   Router : constant List := 3;
   Output : constant List := 4;
   Label  : constant List := 5;

   type Word_Format is new Unsigned_32;
   Bnr  : constant Word_Format := 1;
   Bcd  : constant Word_Format := 2;
   Disc : constant Word_Format := 3;

   --  The fields of a word.
   type Fields is record
      Label     : Unsigned_32;
      Sdi       : Unsigned_32;
      Ssm       : Unsigned_32;
      Status    : Unsigned_32;
      Bits      : Unsigned_32;
      Bnr       : Integer_32;
      Bcd       : Unsigned_32;
      Bad_Digit : Unsigned_32;
      Is_Odd    : C_bool;
      Is_Usable : C_bool;
   end record
   with Convention => C;

   --  Texts are handed over as the address of their first byte and their length.

   function Open
     (E                  : in out Engine;
      Tables             : System.Address;
      Tables_Length      : size_t;
      Certificate        : System.Address;
      Certificate_Length : size_t;
      Why                : out Fault) return C_bool
   with Import, Convention => C, External_Name => "dc429_open";

   function Check
     (Tables             : System.Address;
      Tables_Length      : size_t;
      Certificate        : System.Address;
      Certificate_Length : size_t;
      Why                : out Fault) return C_bool
   with Import, Convention => C, External_Name => "dc429_check";

   function Find
     (Tables        : System.Address;
      Tables_Length : size_t;
      Text          : System.Address;
      Room          : size_t;
      Length        : out size_t;
      Why           : out Fault) return C_bool
   with Import, Convention => C, External_Name => "dc429_find";

   function Margins
     (Tables             : System.Address;
      Tables_Length      : size_t;
      Certificate        : System.Address;
      Certificate_Length : size_t;
      Text               : System.Address;
      Room               : size_t;
      Length             : out size_t;
      Why                : out Fault) return C_bool
   with Import, Convention => C, External_Name => "dc429_margins";

   function Least_Margins
     (Tables        : System.Address;
      Tables_Length : size_t;
      Text          : System.Address;
      Room          : size_t;
      Length        : out size_t;
      Why           : out Fault) return C_bool
   with Import, Convention => C, External_Name => "dc429_least_margins";

   procedure Close (E : in out Engine)
   with Import, Convention => C, External_Name => "dc429_close";

   function Arrive (E : in out Engine; Bus : size_t; Word : Unsigned_32; Told : out Reply) return Status
   with Import, Convention => C, External_Name => "dc429_arrive";

   function Route (E : in out Engine; Router : size_t; Told : out Reply) return Status
   with Import, Convention => C, External_Name => "dc429_route";

   function Send (E : in out Engine; Output : size_t; Told : out Reply) return Status
   with Import, Convention => C, External_Name => "dc429_send";

   function Tick (E : in out Engine; Told : out Reply) return Status
   with Import, Convention => C, External_Name => "dc429_tick";

   function Number (E : in out Engine; Of_List : List; Name : System.Address; Length : size_t; Found : in out size_t) return C_bool
   with Import, Convention => C, External_Name => "dc429_number";

   function Name (E : in out Engine; Of_List : List; Number : size_t; Text : System.Address; Room : size_t) return size_t
   with Import, Convention => C, External_Name => "dc429_name";

   function Decode (Word : Unsigned_32; Format : Word_Format; Told : in out Fields) return C_bool
   with Import, Convention => C, External_Name => "dc429_decode";

private

   type Engine is limited record
      Block   : System.Address := System.Null_Address;
      Is_Open : C_bool := C_bool'Val (0);
   end record
   with Convention => C;

end Dc429;
