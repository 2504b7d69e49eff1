procedure Unready;
