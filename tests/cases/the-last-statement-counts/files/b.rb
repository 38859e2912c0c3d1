class A
  def f
    "a"
    1; :b
    2
  end
end
