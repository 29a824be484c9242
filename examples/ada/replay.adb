--  Replays a trace on the certified engine, and prints what dc429 replay --all prints.
--
--  usage: replay TABLES CERTIFICATE < TRACE
--  Status: 0 done, 1 the certificate or an event is refused, 2 a text can't be read.
with Ada.Command_Line; use Ada.Command_Line;
with Ada.Direct_IO;
with Ada.Directories;
with Ada.Text_IO;      use Ada.Text_IO;
with Dc429;            use Dc429;
with Interfaces;       use Interfaces;
with Interfaces.C;     use Interfaces.C;

procedure Replay is

   Unreadable : exception;

   E    : Engine;
   Told : Reply;
   Tick : Unsigned_64 := 0;

   --  All bytes of a file.
   function Load (Path : String) return String is
      Size : constant Natural := Natural (Ada.Directories.Size (Path));
      subtype Text is String (1 .. Size);
      package Texts is new Ada.Direct_IO (Text);
      File : Texts.File_Type;
      Read : Text;
   begin
      Texts.Open (File, Texts.In_File, Path);
      if Size > 0 then
         Texts.Read (File, Read);
      end if;
      Texts.Close (File);
      return Read;
   end Load;

   --  A number without the space before it.
   function Image (Value : Unsigned_64) return String is
      Text : constant String := Value'Image;
   begin
      return Text (Text'First + 1 .. Text'Last);
   end Image;

   --  A word as eight hexadecimal digits.
   function Hex (Word : Unsigned_32) return String is
      Digit : constant String := "0123456789ABCDEF";
      Text  : String (1 .. 8);
   begin
      for At_Digit in Text'Range loop
         Text (At_Digit) := Digit (1 + Natural (Shift_Right (Word, 4 * (8 - At_Digit)) and 15));
      end loop;
      return Text;
   end Hex;

   --  The name of a number.
   function Name_Of (Which : List; Number : size_t) return String is
      Text   : String (1 .. Longest_Name);
      Length : constant size_t := Name (E, Which, Number, Text'Address, Text'Length);
   begin
      return Text (1 .. Natural (Length));
   end Name_Of;

   --  The number of a name.
   function Number_Of (Which : List; Name : String) return size_t is
      Found : size_t := 0;
   begin
      if not Boolean (Number (E, Which, Name'Address, Name'Length, Found)) then
         raise Unreadable;
      end if;
      return Found;
   end Number_Of;

   --  A reply as it is printed behind the tick and the name.
   function Shown (Word : Unsigned_32) return String is
     (case Told.Kind is
        when Queued     => "queued " & Image (Unsigned_64 (Told.Backlog)),
        when Bad_Parity => "parity " & Hex (Word),
        when Undeclared => "undeclared " & Hex (Word),
        when Too_Early  => "early " & Hex (Word),
        when Overrun    => "overrun " & Hex (Word),
        when Latched    => "latched " & Hex (Word),
        when Took       => "took " & Name_Of (Bus, Told.Number) & " " & Hex (Told.Word),
        when Empty      => "empty " & Name_Of (Bus, Told.Number),
        when Sent       => Hex (Told.Word),
        when others     => "idle");

   --  Why an event is refused, as it is printed.
   function Refusal (Name : String) return String is
     (case Told.Kind is
        when Spent       => "spent " & Name,
        when Too_Soon    => "early " & Name,
        when Owed_Router => "owed " & Name_Of (Router, Told.Number),
        when Owed_Output => "owed " & Name_Of (Output, Told.Number),
        when Tick_Limit  => "ticks",
        when others      => "unknown");

   --  Carries out the event of a line, A BUS WORD, R ROUTER, S OUTPUT or T, and prints what comes of it. False: it was refused.
   function Carried (Line : String; Number : Positive) return Boolean is
      Kind   : constant Character := (if Line = "" then ' ' else Line (Line'First));
      Last   : constant Natural := (if Kind = 'A' then Line'Last - 9 else Line'Last);
      Name   : constant String := (if Kind = 'T' then "" else Line (Line'First + 2 .. Last));
      Word   : Unsigned_32 := 0;
      Status : Dc429.Status;
   begin
      case Kind is
         when 'A'    =>
            Word := Unsigned_32'Value ("16#" & Line (Last + 2 .. Line'Last) & "#");
            Status := Arrive (E, Number_Of (Bus, Name), Word, Told);
         when 'R'    => Status := Route (E, Number_Of (Router, Name), Told);
         when 'S'    => Status := Send (E, Number_Of (Output, Name), Told);
         when 'T'    => Status := Dc429.Tick (E, Told);
         when others => raise Unreadable;
      end case;
      if Status /= Ok then
         Put_Line ("refused " & Refusal (Name) & " at line " & Image (Unsigned_64 (Number)));
         return False;
      end if;
      if Told.Kind = Now then
         Tick := Told.Tick;
         Put_Line (Image (Tick) & " tick");
      else
         Put_Line (Image (Tick) & " " & Name & " " & Shown (Word));
      end if;
      return True;
   end Carried;

   Tables      : constant String := Load (Argument (1));
   Certificate : constant String := Load (Argument (2));
   Why         : Fault;
   Line        : Natural := 0;

begin
   if not Boolean (Open (E, Tables'Address, Tables'Length, Certificate'Address, Certificate'Length, Why)) then
      Put_Line (Standard_Error, Character'Val (Why.Kind) & Why.Code'Image);
      Set_Exit_Status (if Why.Kind = Character'Pos ('C') then 1 else 2);
      return;
   end if;
   while not End_Of_File loop
      Line := Line + 1;
      if not Carried (Get_Line, Line) then
         Set_Exit_Status (1);
         exit;
      end if;
   end loop;
   Close (E);
exception
   when Unreadable | Constraint_Error =>
      Close (E);
      Put_Line ("unreadable line" & Line'Image);
      Set_Exit_Status (2);
end Replay;
