class A
  def f
    "a" "b"
  end
end
