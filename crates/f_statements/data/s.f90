program s
  print *, 'never ended
end program
