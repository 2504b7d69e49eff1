package Words is
   subtype Speakable is Integer range -999_999 .. 999_999;
   procedure Say (Number : Speakable);
end Words;
