procedure Ready;
