class A
  def f
    1; # one
    2 # two
  end
end
