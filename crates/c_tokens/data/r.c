int b <: 3 :>;
