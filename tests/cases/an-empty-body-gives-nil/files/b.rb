class A
  def f
  end
  def g() end
  def h; end
  def i(a)
    # nothing

  end
end
