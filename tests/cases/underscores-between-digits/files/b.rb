class A
  def f
    1_000_000
  end
end
