class A
  def to_s
    ""
  end
end
