with Words;
procedure Number_Words is
begin
   Words.Say (0);
   Words.Say (7);
   Words.Say (13);
   Words.Say (40);
   Words.Say (99);
   Words.Say (100);
   Words.Say (342);
   Words.Say (1_000);
   Words.Say (1_005);
   Words.Say (21_900);
   Words.Say (-700_013);
   Words.Say (Words.Speakable'Last);
end Number_Words;
